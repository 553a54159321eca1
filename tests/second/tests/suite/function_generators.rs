//! What the generators make of functions: calls within calls, several actuals, Conds of which
//! now one command needs more and now the other, Loops in functions that no one calls,
//! functions that are hidden, and steps on both sides of a million.

use crate::helpers::*;
use crate::other_choices::with_choices;
use second::effect::Effect;
use second::engine::{pass, Answer};
use second::free_run::{FreeRun, Next};
use second::generate::random::Random;
use second::generate::scope::Scope;
use second::generate::well_typed::{Generator, Temper};
use second::generate::Family;
use second::needs::{has_loop, needs, Figures, Needs, Steps};
use second::node::Node;
use second::state::{ControlEntry, Heights, Mark};
use second::tree::*;
use std::collections::{BTreeMap, BTreeSet};

/// What some free runs of a routine, with tests that fall by chance, come by.
#[derive(Default)]
struct Met {
    /// The most Calls, and the most Blks, that are entered and not left.
    calls: usize,
    blocks: usize,
    loops: bool,
}

fn met(routine: &Routine, random: &mut Random) -> Met {
    let nodes = routine.root.preorder();
    let called: BTreeSet<Place> = nodes
        .iter()
        .filter(|(node, _)| matches!(node, Node::Call(_)))
        .map(|(node, _)| node.place())
        .collect();
    let mut met = Met::default();
    for _ in 0..8 {
        let mut run = FreeRun::start(routine);
        let effect = &mut Effect::none();
        for _ in 0..2_000 {
            let left_by = run.state.control.iter().filter_map(|entry| match entry {
                ControlEntry::Mark(Mark::BlkSecond { place, .. }) => Some(*place),
                _ => None,
            });
            let (calls, blocks): (Vec<_>, Vec<_>) =
                left_by.partition(|place| called.contains(place));
            met.calls = met.calls.max(calls.len());
            met.blocks = met.blocks.max(blocks.len());
            match run.next() {
                Next::End => break,
                Next::Step => run.step(effect),
                Next::Test => {
                    let mark = run.state.control.last();
                    met.loops |= matches!(mark, Some(ControlEntry::Mark(Mark::Loop)));
                    run.step_as(random.chance(1, 2), effect);
                }
            }
        }
    }
    met
}

/// Whether an inner function has an outer one's name, or a Formal has a function's.
fn hides(routine: &Routine) -> bool {
    let nodes = routine.root.preorder();
    let functions = nodes.iter().filter_map(|(node, _)| match node {
        Node::Bind(Bind { name, bound: Bound::Abs(_), .. }) => Some(*name),
        _ => None,
    });
    let functions: Vec<Name> = functions.collect();
    let different: BTreeSet<Name> = functions.iter().copied().collect();
    let hidden = nodes.iter().any(|(node, _)| match node {
        Node::Formal(formal) => different.contains(&formal.name),
        _ => false,
    });
    hidden || different.len() < functions.len()
}

/// Whether a Call has two actuals or more, one of them with an operation.
fn has_large_actuals(routine: &Routine) -> bool {
    routine.root.preorder().iter().any(|(node, _)| match node {
        Node::Call(Call { actuals, .. }) => {
            let operates = |actual: &Expression| matches!(actual.form, Form::Binary(..));
            actuals.len() >= 2 && actuals.iter().any(operates)
        }
        _ => false,
    })
}

/// The figures of the routine with this root, if there is no Loop and a small effort does.
fn figures(routine: &Routine, root: Command) -> Option<(Heights, u64)> {
    let other = Routine { root: Root::Command(root), ..routine.clone() };
    match needs(&other, 50_000) {
        Needs::Figures(Figures { room, steps: Steps::Most(steps) }) => Some((room, steps)),
        _ => None,
    }
}

/// Whether some figure is lower without the second commands of the Conds, and some other one
/// without the first: the larger has to be taken of each figure by itself.
fn has_unequal_choices(routine: &Routine) -> Option<bool> {
    let Root::Command(root) = &routine.root else { return None };
    let all = figures(routine, root.clone())?;
    let firsts = with_choices(root, &|first, _| (first.clone(), first));
    let firsts = figures(routine, firsts)?;
    let seconds = with_choices(root, &|_, second| (second.clone(), second));
    let seconds = figures(routine, seconds)?;
    Some(firsts != all && seconds != all && firsts != seconds)
}

/// A tree full of functions passes, before there is a change in it.
#[test]
fn functions_pass_the_checker() {
    for seed in 0..1_500 {
        let random = &mut Random::new(seed);
        let registers = *random.pick(&[0, 1, 2, 4, 16]);
        let mut generator = Generator { random, temper: Temper::Calm };
        let root = generator.functions(&Scope::of_registers(registers));
        assert_eq!(checked_tree(registers, root), Answer::Command, "{seed}");
    }
}

#[test]
fn functions_have_everything() {
    let mut often: BTreeMap<&str, u32> = BTreeMap::new();
    let mut count_if = |holds: bool, what| *often.entry(what).or_default() += u32::from(holds);
    let random = &mut Random::new(7);
    for seed in 0..1_000 {
        let case = Family::Functions.case(seed);
        let Ok((routine, _)) = pass(&case.image) else { continue };
        let met = met(&routine, random);
        count_if(true, "passed");
        count_if(met.calls >= 2, "a call in a call");
        count_if(met.calls >= 4, "calls four deep");
        count_if(met.blocks >= 6, "blocks six deep");
        count_if(hides(&routine), "hidden functions");
        count_if(has_large_actuals(&routine), "large actuals");
        count_if(met.loops, "loops that are met");
        count_if(has_loop(&routine) && !met.loops, "loops that no one meets");
        count_if(has_unequal_choices(&routine) == Some(true), "unequal choices");
    }
    let least = [
        ("passed", 700),
        ("a call in a call", 400),
        ("calls four deep", 60),
        ("blocks six deep", 100),
        ("hidden functions", 200),
        ("large actuals", 300),
        ("loops that are met", 60),
        ("loops that no one meets", 60),
        ("unequal choices", 60),
    ];
    for (what, least) in least {
        assert!(often[what] >= least, "{what} in {often:?}");
    }
}

/// Steps on both sides of a million, and those of few images not known.
#[test]
fn functions_have_steps_of_every_length() {
    let mut often: BTreeMap<&str, u32> = BTreeMap::new();
    for seed in 0..600 {
        let what = match needed(&Family::Functions.case(seed).image) {
            Needs::Figures(figures) => match figures.steps {
                Steps::Open => "open",
                Steps::Most(0..=999) => "up to a thousand",
                Steps::Most(..=99_999) => "up to a hundred thousand",
                Steps::Most(_) => "up to a million",
            },
            Needs::Refused(refusal) if refusal.number == 40 => "above a million",
            Needs::Refused(_) => "refused",
            Needs::AtLeast(_) => "not known",
        };
        *often.entry(what).or_default() += 1;
    }
    let least = [
        ("open", 100),
        ("up to a thousand", 200),
        ("up to a hundred thousand", 3),
        ("up to a million", 5),
        ("above a million", 4),
        ("refused", 50),
    ];
    for (what, least) in least {
        assert!(often.get(what).is_some_and(|times| *times >= least), "{what} in {often:?}");
    }
    assert!(often.get("not known").is_none_or(|times| *times <= 3), "{often:?}");
}

/// A change at a Call gives each refusal of a call and of names, and often none.
#[test]
fn changes_of_functions_end_in_many_ways() {
    let mut often: BTreeMap<u32, u32> = BTreeMap::new();
    for seed in 0..2_000 {
        let refusal = checked(&Family::Functions.case(seed).image).refusal();
        *often.entry(refusal.map_or(0, |refusal| refusal.number)).or_default() += 1;
    }
    for number in [0, 5, 10, 11, 12, 13, 14] {
        assert!(often.get(&number).is_some_and(|times| *times >= 5), "{number} in {often:?}");
    }
}
