//! The generators: what they must reach, so that comparisons mean something.

use crate::helpers::*;
use crate::towers::after;
use second::engine::{pass, run, Answer, Outcome, MOST_BUDGET};
use second::execution::Execution;
use second::generate::Family;
use second::kinds::TABLE;
use second::node::Node;
use second::reader::read;
use second::state::{ControlEntry, Heights, Mark};
use second::tree::Form;
use std::collections::{BTreeMap, BTreeSet};

#[test]
fn the_same_seed_gives_the_same_case() {
    for (_, family) in Family::ALL {
        assert_eq!(family.case(11), family.case(11));
        let different: BTreeSet<_> = (0..50).map(|seed| family.case(seed).image).collect();
        assert!(different.len() > 30, "{family:?}");
    }
}

#[test]
fn well_typed_cases_pass_the_checker() {
    let mut largest = 0;
    let families = [
        (Family::Small, 3_000),
        (Family::Medium, 500),
        (Family::Large, 150),
        (Family::Faulty, 500),
    ];
    for (family, count) in families {
        for seed in 0..count {
            let case = family.case(seed);
            assert_eq!(checked(&case.image).refusal(), None, "{family:?} {seed}");
            assert_eq!(case.registers.len(), case.image[1] as usize);
            largest = largest.max(case.image[0]);
        }
    }
    assert!(largest > 1_700, "the largest has {largest} nodes");
}

/// Every kind, every Formal code, every count of actuals, every register count's
/// ends and every sort of root come up.
#[test]
fn well_typed_cases_have_everything() {
    let mut kinds = BTreeSet::new();
    let mut formals = BTreeSet::new();
    let mut actuals = BTreeSet::new();
    let mut codes = BTreeSet::new();
    let mut registers = BTreeSet::new();
    let mut roots = BTreeSet::new();
    for seed in 0..400 {
        let case = Family::Medium.case(seed);
        let routine = read(&case.image).unwrap();
        registers.insert(routine.registers);
        roots.insert(format!("{:?}", checked(&case.image)));
        for (node, _) in routine.root.preorder() {
            kinds.insert(second::kinds::by_kind(node.kind()).number);
            match node {
                Node::Formal(node) => {
                    formals.insert(node.code);
                }
                Node::Call(node) => {
                    actuals.insert(node.actuals.len());
                    let deref = |form: &Form| matches!(form, Form::DeRef(_) | Form::ValRef(_));
                    codes.insert(node.actuals.iter().any(|actual| deref(&actual.form)));
                }
                _ => {}
            }
        }
    }
    assert_eq!(kinds.len(), TABLE.len());
    assert_eq!(formals, (0..8).collect());
    assert_eq!(actuals, (0..9).collect());
    assert_eq!(codes.len(), 2);
    assert!(registers.contains(&0) && registers.contains(&16));
    for root in [Answer::Code(0), Answer::Code(1), Answer::Code(2), Answer::Command] {
        assert!(roots.contains(&format!("{root:?}")), "{root:?}");
    }
}

/// Functions with Formals of every code are called, not only declared.
#[test]
fn calls_are_made_with_every_code() {
    let mut called = BTreeSet::new();
    for seed in 0..600 {
        let case = Family::Medium.case(seed);
        let (routine, _) = pass(&case.image).unwrap();
        Execution::start(&routine, &case.registers, 2_000).finish(|at| {
            if let Some(ControlEntry::Mark(Mark::Call(node))) = at.state().control.last() {
                if let Some(second::state::Bindable::Closure(closure)) = at.state().look(node.name)
                {
                    called.extend(closure.abs.formals.iter().map(|formal| formal.code));
                }
            }
        });
    }
    assert_eq!(called, (0..8).collect());
}

/// How the cases of a family end: each refusal number, or 0, with its places.
/// Budgets that the engine allows are cut to 20,000.
fn ends(family: Family, count: u64) -> BTreeMap<u32, BTreeSet<u32>> {
    let mut places: BTreeMap<u32, BTreeSet<u32>> = BTreeMap::new();
    for seed in 0..count {
        let mut case = family.case(seed);
        let budget = if case.budget <= MOST_BUDGET { case.budget.min(20_000) } else { case.budget };
        let reply = run(&case.image, &mut case.registers, budget, case.work_length);
        let (number, place) =
            reply.refusal().map_or((0, 0), |refusal| (refusal.number, refusal.place));
        places.entry(number).or_default().insert(place);
    }
    places
}

#[test]
fn damage_reaches_every_refusal_of_the_image_at_many_places() {
    let places = ends(Family::Damaged, 6_000);
    for number in [1, 2] {
        assert_eq!(places[&number], BTreeSet::from([0]), "{number}");
    }
    for number in [3, 4, 5, 6, 10, 11, 12, 13, 14] {
        assert!(places[&number].len() >= 12, "{number} at {:?}", places[&number]);
    }
    assert!(places.contains_key(&0));
}

#[test]
fn well_typed_cases_reach_30_31_32_and_normal_ends() {
    let numbers: Vec<u32> = ends(Family::Small, 1_500).into_keys().collect();
    assert_eq!(numbers, [0, 30, 31, 32]);
    // Faulty ones mostly end in 31 or 32, after very different numbers of steps.
    let mut steps: BTreeMap<u32, BTreeSet<u64>> = BTreeMap::new();
    for seed in 0..1_000 {
        let case = Family::Faulty.case(seed);
        let (reply, _) = run_at(&case.image, &case.registers, 1_000);
        let number = reply.refusal().map_or(0, |refusal| refusal.number);
        steps.entry(number).or_default().insert(reply.steps);
    }
    assert!(steps[&31].len() > 30 && steps[&32].len() > 30);
}

#[test]
fn limits_reach_33_to_36_and_both_sides_of_2_and_6() {
    let numbers: Vec<u32> = ends(Family::Limits, 400).into_keys().collect();
    for number in [0, 2, 6, 30, 33, 34, 35, 36] {
        assert!(numbers.contains(&number), "{number} not in {numbers:?}");
    }
    for seed in 0..400 {
        let case = Family::Limits.case(seed);
        let refusal = checked(&case.image).refusal();
        assert!(refusal.is_none_or(|refusal| [2, 6].contains(&refusal.number)), "{refusal:?}");
    }
}

/// The Blk of a function that is called has room on neither stack: from every height of
/// control and with every count of actuals that comes there, and with a register set before.
#[test]
fn limits_have_calls_that_both_stacks_withhold() {
    let mut met: BTreeMap<(usize, usize), u32> = BTreeMap::new();
    let mut set_before = 0;
    for seed in 0..1_500 {
        let case = Family::Limits.case(seed);
        let Ok((routine, _)) = pass(&case.image) else { continue };
        let mut execution = Execution::start(&routine, &case.registers, case.budget.min(8_000));
        let Some(35 | 36) = execution.finish(|_| {}) else { continue };
        let state = execution.state();
        let Heights { values, control, .. } = after(state);
        if values <= 512 || control <= 512 {
            continue;
        }
        let [.., ControlEntry::Mark(Mark::BlkSecond { place, .. }), top] = state.control[..] else {
            panic!("no mark is below the top");
        };
        assert!(matches!(top, ControlEntry::Node(Node::Blk(_))), "{top:?}");
        let called = routine.root.preorder().into_iter().find(|(node, _)| node.place() == place);
        let Some((Node::Call(node), _)) = called else { panic!("no Call is at {place}") };
        // The Call's height: its mark has left the Blk and the mark behind it.
        *met.entry((node.actuals.len(), state.control.len() - 1)).or_default() += 1;
        set_before += u32::from(state.registers(case.registers.len()) != case.registers);
    }
    let everywhere = [0, 1, 2].into_iter().flat_map(|count| [(count, 509), (count, 510)]);
    for sort in everywhere.chain([(0, 511), (1, 511)]) {
        assert!(met.get(&sort).is_some_and(|times| *times >= 5), "{sort:?} in {met:?}");
    }
    assert!(set_before >= 30, "a register was set before {set_before} of {met:?}");
}

#[test]
fn hosts_faults_reach_20_21_and_22() {
    let numbers: Vec<u32> = ends(Family::Host, 2_000).into_keys().collect();
    for number in [0, 10, 20, 21, 22] {
        assert!(numbers.contains(&number), "{number} not in {numbers:?}");
    }
}

/// What an image with no node, or one near it, is.
fn near_empty(image: &[u32]) -> Option<&'static str> {
    match *image {
        [0] => Some("n 0 alone"),
        [0, 0..=16] => Some("no node"),
        [0, 0..=16, ..] => Some("no node, words behind"),
        [0, _] => Some("no node, r above 16"),
        [0, ..] => Some("no node, r above 16, words behind"),
        [1, 0..=16] => Some("n 1, no node there"),
        _ => None,
    }
}

#[test]
fn images_with_no_node_and_near_ones_come_up() {
    let all = [
        "n 0 alone",
        "no node",
        "no node, words behind",
        "no node, r above 16",
        "no node, r above 16, words behind",
        "n 1, no node there",
    ];
    let families: [(Family, u64, &[&str]); 8] = [
        (Family::Small, 1_000, &all[1..2]),
        (Family::Medium, 1_000, &all[1..2]),
        (Family::Large, 400, &all[1..2]),
        (Family::Damaged, 3_000, &all[1..3]),
        (Family::Empty, 1_000, &all),
        (Family::Plausible, 3_000, &all[1..4]),
        (Family::Words, 3_000, &all[..5]),
        (Family::Host, 2_000, &all[1..3]),
    ];
    for (family, count, expected) in families {
        let mut met: BTreeMap<&str, u32> = BTreeMap::new();
        for seed in 0..count {
            if let Some(sort) = near_empty(&family.case(seed).image) {
                *met.entry(sort).or_default() += 1;
            }
        }
        for sort in expected {
            assert!(
                met.get(sort).is_some_and(|times| *times >= 5),
                "{family:?}: {sort} in {met:?}"
            );
        }
    }
}

/// Images with no node end normally with the least budget, the greatest and others,
/// with every count of registers, and meet each fault of the host.
#[test]
fn images_with_no_node_meet_every_budget_and_every_fault_of_the_host() {
    let mut budgets = BTreeSet::new();
    let mut counts = BTreeSet::new();
    let mut refusals = BTreeSet::new();
    for seed in 0..2_000 {
        let mut case = Family::Empty.case(seed);
        if near_empty(&case.image) == Some("no node") {
            let starts = case.registers.clone();
            let reply = run(&case.image, &mut case.registers, case.budget, case.work_length);
            assert_eq!((reply.steps, &case.registers), (0, &starts));
            match reply.refusal() {
                Some(refusal) => {
                    refusals.insert(refusal.number);
                }
                None => {
                    assert_eq!(reply.outcome, Outcome::None);
                    budgets.insert(case.budget);
                    counts.insert(starts.len());
                }
            }
        }
    }
    assert_eq!(budgets, BTreeSet::from([0, 1, 2, 1_000, MOST_BUDGET - 1, MOST_BUDGET]));
    assert_eq!(counts, (0..17).collect());
    assert_eq!(refusals, BTreeSet::from([20, 21, 22]));
    let numbers: Vec<u32> = ends(Family::Empty, 1_000).into_keys().collect();
    assert_eq!(numbers, [0, 1, 2, 20, 21, 22]);
}

#[test]
fn shaped_cases_have_the_right_shape_and_some_pass() {
    let mut passed = 0;
    for seed in 0..3_000 {
        let image = Family::Shaped.case(seed).image;
        assert!(read(&image).is_ok(), "{image:?}");
        passed += pass(&image).is_ok() as u32;
    }
    assert!(passed > 100, "{passed} passed");
}

#[test]
fn words_and_plausible_words_are_mostly_refused() {
    let words = ends(Family::Words, 500);
    assert!(words.contains_key(&1) && words.contains_key(&2));
    let plausible = ends(Family::Plausible, 5_000);
    for number in [0, 1, 2, 3, 4, 5] {
        assert!(plausible.contains_key(&number), "{number}");
    }
}

#[test]
fn every_outcome_comes_up() {
    let mut outcomes = BTreeSet::new();
    for seed in 0..600 {
        let case = Family::Small.case(seed);
        outcomes.insert(match run_at(&case.image, &case.registers, 1_000).0.outcome {
            Outcome::Number(_) => "number",
            Outcome::Truth(_) => "truth",
            Outcome::Cell(_) => "cell",
            Outcome::None => "none",
            Outcome::Refused(_) => "refused",
        });
    }
    assert_eq!(outcomes.len(), 5);
}
