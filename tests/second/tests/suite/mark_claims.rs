//! Claims about the high marks of generated runs: at every budget tried they are the most
//! over the states until there, and within the limits.

use crate::helpers::*;
use second::engine::{pass, MOST_BUDGET};
use second::execution::{room, Execution};
use second::generate::random::Random;
use second::generate::{Case, Family};
use second::state::Heights;
use std::collections::BTreeMap;

/// How often a run ended for each reason, 0 for a normal end; and how many were cut off.
#[derive(Default)]
struct Held {
    ends: BTreeMap<u32, u64>,
    cut_off: u64,
}

/// Hold the claims in the run of a case, at this budget and at some lower ones.
fn hold(case: &Case, budget: u64, random: &mut Random, held: &mut Held) {
    let Ok((routine, _)) = pass(&case.image) else { return };
    if case.registers.len() != routine.registers as usize {
        return;
    }
    let mut heights = Vec::new();
    let mut execution = Execution::start(&routine, &case.registers, budget);
    let reason = execution.finish(|at| heights.push(at.state().heights()));
    let most = |states: &[Heights], of: fn(&Heights) -> usize| states.iter().map(of).max().unwrap();
    let marks_until = |steps: u64| {
        let states = &heights[..=steps as usize];
        Heights {
            cells: most(states, |at| at.cells),
            bindings: most(states, |at| at.bindings),
            values: most(states, |at| at.values),
            control: most(states, |at| at.control),
        }
    };
    let (reply, _) = run_at(&case.image, &case.registers, budget);
    assert_eq!((reply.steps, reply.marks), (execution.steps(), marks_until(execution.steps())));
    assert_eq!(room(reply.marks), None, "{:?}", reply.marks);
    *held.ends.entry(reason.unwrap_or(0)).or_default() += 1;
    for _ in 0..4 {
        let lower = random.below(reply.steps as usize + 1) as u64;
        let (cut, _) = run_at(&case.image, &case.registers, lower);
        assert_eq!(cut.marks, marks_until(lower), "budget {lower}");
        held.cut_off += 1;
    }
}

/// Hold the claims in so many cases of a family.
fn hold_all(family: Family, count: u64, budget: u64) -> Held {
    let (mut held, random) = (Held::default(), &mut Random::new(count));
    for seed in 0..count {
        hold(&family.case(seed), budget, random, &mut held);
    }
    held
}

/// Each of these reasons was met so often, and so many runs were cut off.
fn met(held: &Held, reasons: &[u32], least: u64) {
    for reason in reasons {
        let times = held.ends.get(reason).copied().unwrap_or(0);
        assert!(times >= least, "{reason}: {:?}", held.ends);
    }
    assert!(held.cut_off >= 200, "{} are few", held.cut_off);
}

#[test]
fn marks_of_well_typed_images() {
    for (family, count) in [(Family::Small, 2_000), (Family::Medium, 400), (Family::Large, 60)] {
        met(&hold_all(family, count, 3_000), &[0, 30], 5);
    }
    met(&hold_all(Family::Faulty, 1_000, 3_000), &[0, 31, 32], 20);
}

#[test]
fn marks_of_sequences_choices_and_functions() {
    for family in [Family::Sequences, Family::Choices, Family::Functions] {
        met(&hold_all(family, 500, 3_000), &[0], 100);
    }
}

/// Each limit is met, and the mark is never above it.
#[test]
fn marks_near_the_limits() {
    let held = hold_all(Family::Limits, 600, MOST_BUDGET / 100);
    met(&held, &[0, 33, 34, 35, 36], 10);
}

#[test]
fn marks_of_whatever_passes() {
    met(&hold_all(Family::Shaped, 4_000, 1_000), &[0], 100);
    met(&hold_all(Family::Empty, 400, 10), &[0], 100);
}
