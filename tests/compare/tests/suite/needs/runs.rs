//! The engine's needs against the engine's own runs: no high mark is above its figure, where
//! the four figures are within the limits no run is withheld for 33 to 36, and without Loop and
//! Cond the marks and steps of a run that ends are the figures.

use crate::helpers::with_starts;
use compare::engine::{self, NeedsReply};
use compare::run::as_words;
use second::engine::{MOST_BUDGET, WORK_WORDS};
use second::generate::{Case, Family};
use second::kinds::{by_number, Kind};

#[test]
fn runs_keep_to_the_needs() {
    let (mut with_room, mut without, mut exact) = (0, 0, 0);
    let families = [
        (Family::Small, 2_000),
        (Family::Medium, 500),
        (Family::Functions, 600),
        (Family::Sequences, 1_000),
        (Family::Choices, 500),
        (Family::Limits, 800),
        (Family::Empty, 200),
    ];
    for (family, count) in families {
        for seed in 0..count {
            let Case { image, registers, .. } = family.case(0xace + seed);
            let case = with_starts(image, &registers);
            let work = &mut vec![1; WORK_WORDS];
            let needs = engine::needs(&case.image, work);
            let NeedsReply { control, values, cells, bindings, .. } = needs;
            if needs.refusal != 0 {
                continue;
            }
            let budget = if needs.open == 1 { 20_000 } else { MOST_BUDGET };
            let run = engine::run(&case.image, &mut as_words(&registers), budget, work);
            let figures = [cells, bindings, values, control];
            let within = run.marks().iter().zip(figures).all(|(mark, figure)| *mark <= figure);
            assert!(within, "{:?} in {figures:?}: {family:?} {seed}", run.marks());
            let room = control <= 512 && values <= 512 && cells <= 256 && bindings <= 512;
            if room {
                assert!(!(33..=36).contains(&run.refusal), "{family:?} {seed}");
                with_room += 1;
            } else {
                without += u32::from((33..=36).contains(&run.refusal));
            }
            let kinds = &case.image[2..2 + case.image[0] as usize];
            let choices =
                kinds.iter().any(|kind| by_number(*kind).expect("a kind").kind == Kind::Cond);
            if needs.open == 0 && !choices && run.refusal == 0 {
                let reached = (run.steps, run.marks());
                assert_eq!(reached, (needs.steps, figures), "{family:?} {seed}");
                exact += 1;
            }
            assert!(needs.open == 1 || run.steps <= needs.steps, "{family:?} {seed}");
        }
    }
    assert!(with_room >= 3_000 && without >= 150 && exact >= 800, "{with_room} {without} {exact}");
}
