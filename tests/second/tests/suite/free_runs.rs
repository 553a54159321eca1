//! The search through the free runs, held against each free run gone through by itself: no
//! state is known again there, and each Loop has up to one round each time it is come to.

use second::effect::Effect;
use second::engine::pass;
use second::free_run::{FreeRun, Next};
use second::generate::random::Random;
use second::generate::Family;
use second::needs::{needs, Figures, Needs, Steps, EFFORT};
use second::state::{ControlEntry, Heights, Mark};
use second::tree::Routine;

/// What all free runs of a routine reach.
#[derive(Default)]
struct Reached {
    room: Heights,
    steps: u64,
    runs: u64,
    /// Steps that may still be made.
    left: u64,
}

/// Go through all free runs from here, which have made so many steps; the heights of control
/// at the Loops with a round under way are known. `None` if there are too many.
fn go<'t>(
    mut run: FreeRun<'t>,
    mut steps: u64,
    mut rounds: Vec<usize>,
    reached: &mut Reached,
) -> Option<()> {
    let effect = &mut Effect::none();
    loop {
        reached.left = reached.left.checked_sub(1)?;
        reached.room.raise(run.state.heights());
        reached.steps = reached.steps.max(steps);
        let control = &run.state.control;
        match (run.next(), control.last()) {
            (Next::End, _) => {
                reached.runs += 1;
                return Some(());
            }
            (Next::Step, _) => run.step(effect),
            (Next::Test, Some(ControlEntry::Mark(Mark::Loop))) => {
                if rounds.last() == Some(&control.len()) {
                    rounds.pop();
                } else {
                    let mut round = run.clone();
                    let rounds = [&rounds[..], &[control.len()]].concat();
                    round.step_as(true, effect);
                    go(round, steps + 1, rounds, reached)?;
                }
                run.step_as(false, effect);
            }
            (Next::Test, _) => {
                let mut first = run.clone();
                first.step_as(true, effect);
                go(first, steps + 1, rounds.clone(), reached)?;
                run.step_as(false, effect);
            }
        }
        steps += 1;
    }
}

fn one_by_one(routine: &Routine, left: u64) -> Option<Reached> {
    let mut reached = Reached { left, ..Reached::default() };
    go(FreeRun::start(routine), 0, Vec::new(), &mut reached)?;
    Some(reached)
}

/// The search finds what the free runs reach one by one, in images with many of them.
#[test]
fn the_search_finds_what_the_runs_reach() {
    for (family, count, least, many) in [
        (Family::Small, 3_000, 2_900, 200),
        (Family::Medium, 600, 500, 250),
        (Family::Choices, 2_000, 1_200, 1_000),
        (Family::Sequences, 1_000, 800, 50),
        (Family::Functions, 1_500, 1_000, 350),
        (Family::Limits, 100, 80, 20),
    ] {
        let (mut compared, mut with_many) = (0, 0);
        for seed in 0..count {
            let Ok((routine, _)) = pass(&family.case(seed).image) else { continue };
            let Some(reached) = one_by_one(&routine, 30_000) else { continue };
            let Needs::Figures(Figures { room, steps }) = needs(&routine, EFFORT) else {
                panic!("{family:?} {seed} has few states");
            };
            assert_eq!(room, reached.room, "{family:?} {seed}");
            if let Steps::Most(steps) = steps {
                assert_eq!(steps, reached.steps, "{family:?} {seed}");
            }
            compared += 1;
            with_many += u32::from(reached.runs >= 4);
        }
        assert!(compared >= least && with_many >= many, "{family:?}: {compared}, {with_many}");
    }
}

/// No free run is above the figures, however its tests fall.
#[test]
fn runs_by_chance_stay_within_the_figures() {
    let random = &mut Random::new(4);
    let families = [(Family::Medium, 300), (Family::Large, 60), (Family::Choices, 300)];
    for (family, count) in families {
        for seed in 0..count {
            let Ok((routine, _)) = pass(&family.case(seed).image) else { continue };
            let Needs::Figures(figures) = needs(&routine, EFFORT) else {
                panic!("{family:?} {seed} has not so many states");
            };
            for _ in 0..10 {
                let mut run = FreeRun::start(&routine);
                let effect = &mut Effect::none();
                let mut most = figures.room;
                for _ in 0..3_000 {
                    most.raise(run.state.heights());
                    match run.next() {
                        Next::End => break,
                        Next::Step => run.step(effect),
                        Next::Test => run.step_as(random.chance(1, 2), effect),
                    }
                }
                assert_eq!(most, figures.room, "{family:?} {seed}");
            }
        }
    }
}
