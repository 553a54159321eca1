//! Claims about the needs of generated images: no state and no high mark of a run is above a
//! figure, no run is refused with 33 to 36 where the four are within their limits, and without
//! Loop and Cond the marks and steps of a run that ends are the figures.

use crate::helpers::*;
use second::engine::{pass, MOST_BUDGET};
use second::execution::{reasons_of_room, Execution};
use second::generate::{Case, Family};
use second::needs::{has_loop, Figures, Needs, Steps};
use second::node::Node;
use second::tree::Routine;

/// How often each claim meant something.
#[derive(Default)]
struct Held {
    states: u64,
    /// Runs that cannot be refused with 33 to 36, and those that were.
    with_room: u64,
    without_room: u64,
    /// Runs that reached each figure exactly.
    exact: u64,
    /// Images with 40, and those whose free runs are too many.
    too_many_steps: u64,
    unknown: u64,
}

fn has_choice(routine: &Routine) -> bool {
    routine.root.preorder().iter().any(|(node, _)| matches!(node, Node::Cond(_)))
}

/// Hold the claims in the run of a case, at this budget if there is a Loop.
fn hold(case: &Case, budget: u64, held: &mut Held) {
    let Ok((routine, _)) = pass(&case.image) else { return };
    if case.registers.len() != routine.registers as usize {
        return;
    }
    let needs = needed(&case.image);
    let straight = !has_loop(&routine) && !has_choice(&routine);
    // A run whose steps are a figure may take them all.
    let budget = if has_loop(&routine) { budget } else { MOST_BUDGET };
    let mut execution = Execution::start(&routine, &case.registers, budget);
    let Needs::Figures(figures) = needs else {
        match needs.refusal() {
            // There is one run, and it is longer than a million steps.
            Some(refusal) => {
                assert_eq!((refusal.number, refusal.place), (40, 0));
                let ended = execution.finish(|_| {}).is_none();
                assert!(!(ended && straight), "it ends after {} steps", execution.steps());
                held.too_many_steps += 1;
            }
            None => held.unknown += 1,
        }
        return;
    };
    let reason = execution.finish(|at| {
        let steps = match figures.steps {
            Steps::Most(_) => Steps::Most(at.steps()),
            Steps::Open => Steps::Open,
        };
        let here = Figures { room: at.state().heights(), steps };
        assert!(within(here, figures), "{here:?} in {figures:?}");
        held.states += 1;
    });
    let marks = run_at(&case.image, &case.registers, budget).0.marks;
    assert!(marks.within(figures.room), "{marks:?} in {figures:?}");
    if reasons_of_room(figures.room).into_iter().flatten().next().is_none() {
        assert!(!matches!(reason, Some(33..=36)), "{reason:?}, {figures:?}");
        held.with_room += 1;
    } else if matches!(reason, Some(33..=36)) {
        held.without_room += 1;
    }
    if straight && reason.is_none() {
        let reached = Figures { room: marks, steps: Steps::Most(execution.steps()) };
        assert_eq!(reached, figures);
        held.exact += 1;
    }
}

/// Hold the claims in so many cases of a family.
fn hold_all(family: Family, count: u64, budget: u64) -> Held {
    let mut held = Held::default();
    for seed in 0..count {
        hold(&family.case(seed), budget, &mut held);
    }
    held
}

#[test]
fn needs_of_well_typed_images() {
    for (family, count, exact) in [
        (Family::Small, 3_000, 500),
        (Family::Medium, 800, 60),
        (Family::Large, 100, 1),
        (Family::Faulty, 2_000, 40),
    ] {
        let held = hold_all(family, count, 5_000);
        assert_eq!((held.too_many_steps, held.unknown), (0, 0), "{family:?}");
        assert!(held.with_room > count * 9 / 10, "{family:?}: {}", held.with_room);
        assert!(held.exact >= exact, "{family:?}: {}", held.exact);
    }
}

#[test]
fn needs_of_sequences_and_choices() {
    for (family, exact) in [(Family::Sequences, 300), (Family::Choices, 0)] {
        let held = hold_all(family, 1_500, 5_000);
        assert_eq!((held.too_many_steps, held.unknown), (0, 0), "{family:?}");
        assert!(held.with_room > 1_000 && held.exact >= exact, "{family:?}: {}", held.exact);
    }
}

#[test]
fn needs_of_functions() {
    let held = hold_all(Family::Functions, 700, 2_000);
    assert!(held.too_many_steps >= 7, "{} are 40", held.too_many_steps);
    assert!(held.unknown <= 4, "{} are not known", held.unknown);
    assert!(held.with_room > 450 && held.exact >= 80, "{}, {}", held.with_room, held.exact);
    // Some runs have steps by the hundred thousand.
    assert!(held.states > 1_500_000, "{} states are few", held.states);
}

#[test]
fn needs_near_the_limits() {
    let held = hold_all(Family::Limits, 600, 8_000);
    assert_eq!((held.too_many_steps, held.unknown), (0, 0));
    assert!(held.with_room >= 100 && held.without_room >= 80 && held.exact >= 60);
}

#[test]
fn needs_of_whatever_passes() {
    let held = hold_all(Family::Shaped, 6_000, 2_000);
    assert!(held.with_room > 500 && held.exact > 200, "{}, {}", held.with_room, held.exact);
    let held = hold_all(Family::Damaged, 2_000, 2_000);
    assert!(held.with_room > 500 && held.exact > 100, "{}, {}", held.with_room, held.exact);
    let held = hold_all(Family::Empty, 500, 10);
    assert!(held.with_room > 100 && held.exact > 100, "{}, {}", held.with_room, held.exact);
}

/// Every image that passes has figures or 40, and every other the checker's refusal.
#[test]
fn needs_are_refused_as_the_check_is() {
    for (_, family) in Family::ALL {
        let count = if family == Family::Large { 30 } else { 300 };
        for seed in 0..count {
            let case = family.case(seed);
            let refused = needed_with(&case.image, case.work_length).refusal();
            let checked = second::check(&case.image, case.work_length).refusal();
            let too_many = refused.is_some_and(|refusal| refusal.number == 40);
            assert!(refused == checked || (too_many && checked.is_none()), "{family:?} {seed}");
        }
    }
}
