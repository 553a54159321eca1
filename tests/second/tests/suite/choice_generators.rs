//! What the generators make of Conds: where they stand, that runs take both commands
//! and that it shows which, and faults in either command, taken or not.

use crate::helpers::*;
use crate::other_choices::with_choices;
use second::encode;
use second::engine::pass;
use second::execution::Execution;
use second::generate::Family;
use second::kinds::{by_number, Kind};
use second::node::Node;
use second::reader::read;
use second::state::{ControlEntry, Mark, ValueEntry};
use second::store::Value;
use second::tree::*;
use std::collections::{BTreeMap, BTreeSet};

/// What a Cond may stand in.
#[derive(Clone, Copy, Debug, PartialEq, Eq, PartialOrd, Ord)]
enum Around {
    Block,
    Loop,
    Function,
    First,
    Second,
}

const EVERYWHERE: [Around; 5] =
    [Around::Block, Around::Loop, Around::Function, Around::First, Around::Second];

/// The Conds below a node, each with all that it stands in.
fn choices<'t>(node: Node<'t>, around: &[Around], found: &mut Vec<(&'t Cond, Vec<Around>)>) {
    let with = |inner: Around| [around, &[inner]].concat();
    let inside = match node {
        Node::Cond(node) => {
            found.push((node, around.to_vec()));
            choices((&node.first).into(), &with(Around::First), found);
            return choices((&node.second).into(), &with(Around::Second), found);
        }
        Node::Blk(_) => with(Around::Block),
        Node::Loop(_) => with(Around::Loop),
        Node::Abs(_) => with(Around::Function),
        _ => around.to_vec(),
    };
    for child in node.children() {
        choices(child, &inside, found);
    }
}

fn choices_of(routine: &Routine) -> Vec<(&Cond, Vec<Around>)> {
    let mut found = Vec::new();
    if let Some(root) = routine.root.node() {
        choices(root, &[], &mut found);
    }
    found
}

/// In blocks, loops and functions, and in both commands of another.
#[test]
fn choices_stand_everywhere() {
    let families = [
        (Family::Choices, 500),
        (Family::Small, 3_000),
        (Family::Medium, 400),
        (Family::Large, 60),
        (Family::Faulty, 1_000),
    ];
    for (family, count) in families {
        let mut often: BTreeMap<Around, u32> = BTreeMap::new();
        for seed in 0..count {
            let Ok(routine) = read(&family.case(seed).image) else { continue };
            for (_, around) in choices_of(&routine) {
                for place in around.into_iter().collect::<BTreeSet<_>>() {
                    *often.entry(place).or_default() += 1;
                }
            }
        }
        for place in EVERYWHERE {
            let times = often.get(&place).copied().unwrap_or(0);
            assert!(times >= 15, "{family:?}: {place:?} in {often:?}");
        }
    }
}

/// Which commands the Conds of a run took: for each that was met, whether its first
/// and whether its second.
fn taken(routine: &Routine, starts: &[i64]) -> BTreeMap<Place, [bool; 2]> {
    let mut met: BTreeMap<Place, [bool; 2]> = BTreeMap::new();
    Execution::start(routine, starts, 2_000).finish(|at| {
        let state = at.state();
        if let (
            Some(ControlEntry::Mark(Mark::Cond)),
            [.., ValueEntry::Cond(node), ValueEntry::Value(Value::Truth(truth))],
        ) = (state.control.last(), state.values.as_slice())
        {
            met.entry(node.place).or_default()[usize::from(!truth)] = true;
        }
    });
    met
}

/// Tests are true and false, and those of one Cond both in one run.
#[test]
fn runs_take_either_command_and_both_in_turn() {
    let families = [
        (Family::Choices, 400, 30),
        (Family::Small, 3_000, 5),
        (Family::Medium, 400, 10),
        (Family::Large, 100, 4),
        (Family::Faulty, 2_000, 3),
    ];
    for (family, count, least) in families {
        let (mut firsts, mut seconds, mut both) = (0, 0, 0);
        for seed in 0..count {
            let case = family.case(seed);
            let Ok((routine, _)) = pass(&case.image) else { continue };
            for [first, second] in taken(&routine, &case.registers).into_values() {
                firsts += u32::from(first);
                seconds += u32::from(second);
                both += u32::from(first && second);
            }
        }
        let enough = firsts >= 10 * least && seconds >= 10 * least && both >= least;
        assert!(enough, "{family:?}: {firsts}, {seconds}, {both}");
    }
}

/// Of the runs that come by a Cond, most answer otherwise with the commands exchanged:
/// by their steps, their registers or the fault that they meet.
#[test]
fn it_shows_which_command_was_taken() {
    for (family, count) in [(Family::Choices, 300), (Family::Medium, 300), (Family::Faulty, 800)] {
        let (mut met, mut told, mut by_the_fault) = (0, 0, 0);
        for seed in 0..count {
            let case = family.case(seed);
            let Ok((routine, _)) = pass(&case.image) else { continue };
            let Root::Command(root) = &routine.root else { continue };
            if taken(&routine, &case.registers).is_empty() {
                continue;
            }
            let other = with_choices(root, &|first, second| (second, first));
            let other = Routine { root: Root::Command(other), ..routine.clone() };
            let run = |image: &[u32]| run_at(image, &case.registers, 2_000);
            let (answer, another) = (run(&case.image), run(&encode(&other)));
            met += 1;
            told += u32::from(answer != another);
            let number =
                |(reply, _): &(second::Reply, Vec<i64>)| reply.refusal().map(|it| it.number);
            by_the_fault += u32::from(number(&answer) != number(&another));
        }
        assert!(met >= 50 && 10 * told >= 7 * met, "{family:?}: {told} of {met}");
        if family == Family::Faulty {
            assert!(3 * by_the_fault >= met, "{by_the_fault} of {met} by the fault");
        }
    }
}

/// Every end of a run without a limit, and every refusal that a change of a Cond gives.
#[test]
fn choices_end_in_every_way() {
    let mut often: BTreeMap<u32, u32> = BTreeMap::new();
    for seed in 0..3_000 {
        let case = Family::Choices.case(seed);
        let (reply, _) = run_at(&case.image, &case.registers, case.budget.min(2_000));
        *often.entry(reply.refusal().map_or(0, |refusal| refusal.number)).or_default() += 1;
    }
    for number in [0, 4, 5, 10, 11, 13, 14, 30, 31, 32] {
        assert!(often.get(&number).is_some_and(|times| *times >= 5), "{number} in {often:?}");
    }
}

/// Faults at a Cond, of shape and of types, and in each of its commands; also in the one
/// that is never taken, for the test is a truth.
#[test]
fn damage_reaches_every_part_of_a_choice() {
    for (family, count) in [(Family::Damaged, 8_000), (Family::Choices, 3_000)] {
        let mut often: BTreeMap<&str, u32> = BTreeMap::new();
        let mut count_one = |what| *often.entry(what).or_default() += 1;
        for seed in 0..count {
            let image = family.case(seed).image;
            let Some(refusal) = checked(&image).refusal() else { continue };
            let kind = |place: Place| {
                let word = image.get(2 + place as usize)?;
                by_number(*word).map(|row| row.kind)
            };
            match refusal.number {
                4 if kind(refusal.place) == Some(Kind::Cond) => count_one("operand"),
                5 if refusal.place > 0 && kind(refusal.place - 1) == Some(Kind::Cond) => {
                    count_one("no test")
                }
                10..=14 => {
                    let routine = read(&image).unwrap();
                    for part in parts_at(&routine, refusal.place) {
                        count_one(part);
                    }
                }
                _ => {}
            }
        }
        let parts = [
            "operand",
            "no test",
            "itself",
            "test",
            "first",
            "second",
            "first, not taken",
            "second, not taken",
        ];
        for part in parts {
            let times = often.get(part).copied().unwrap_or(0);
            assert!(times >= 5, "{family:?}: {part} in {often:?}");
        }
    }
}

/// The parts of Conds that a place is in.
fn parts_at(routine: &Routine, place: Place) -> Vec<&'static str> {
    let mut parts = Vec::new();
    for (node, _) in choices_of(routine) {
        let within = |child: Node| {
            (child.place()..child.place() + child.preorder().len() as Place).contains(&place)
        };
        let truth = match node.test.form {
            Form::Boo(truth) => Some(truth),
            _ => None,
        };
        if node.place == place {
            parts.push("itself");
        } else if within((&node.test).into()) {
            parts.push("test");
        } else if within((&node.first).into()) {
            parts.push(if truth == Some(false) { "first, not taken" } else { "first" });
        } else if within((&node.second).into()) {
            parts.push(if truth == Some(true) { "second, not taken" } else { "second" });
        }
    }
    parts
}

/// Runs near the limits: steps withheld for 35 and for 36 while a Cond's test runs, and
/// at the Cond itself, and many Conds passed there.
#[test]
fn limits_are_met_at_choices() {
    let mut withheld: BTreeMap<(u32, bool), u32> = BTreeMap::new();
    let mut passed = 0;
    for seed in 0..1_500 {
        let case = Family::Limits.case(seed);
        let Ok((routine, _)) = pass(&case.image) else { continue };
        let mut execution = Execution::start(&routine, &case.registers, 8_000);
        let reason = execution.finish(|at| {
            let state = at.state();
            let high = state.control.len() > 500 || state.values.len() > 500;
            let mark = matches!(state.control.last(), Some(ControlEntry::Mark(Mark::Cond)));
            passed += u32::from(high && mark);
        });
        let state = execution.state();
        let own = matches!(state.control.last(), Some(ControlEntry::Node(Node::Cond(_))));
        let tested = state.values.iter().any(|entry| matches!(entry, ValueEntry::Cond(_)));
        if let (Some(reason @ (35 | 36)), true) = (reason, own || tested) {
            *withheld.entry((reason, own)).or_default() += 1;
        }
    }
    for sort in [(35, false), (36, false), (36, true)] {
        let times = withheld.get(&sort).copied().unwrap_or(0);
        assert!(times >= 3, "{sort:?} in {withheld:?}");
    }
    assert!(passed >= 200, "{passed} Conds passed near a limit");
}
