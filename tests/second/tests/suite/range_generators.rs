//! What the generators make for ranges: routines most of which have ends, with tests that may
//! be both, within each other and in functions, and 44 at every kind of place; and limits of
//! every sort.

use crate::helpers::*;
use second::carried::Range;
use second::engine::{pass, Answer};
use second::generate::random::Random;
use second::generate::starts::{starts, within};
use second::generate::Family;
use second::needs::has_loop;
use second::node::Node;
use second::ranges::ends;
use second::tree::*;
use std::collections::BTreeMap;

/// Where a node stands: the nodes around it, outermost first.
fn around<'t>(routine: &'t Routine, place: Place) -> Vec<Node<'t>> {
    let mut path = Vec::new();
    let mut next = routine.root.node();
    while let Some(node) = next {
        path.push(node);
        let children = node.children();
        next = children.into_iter().rev().find(|child| child.place() <= place);
        if node.place() == place {
            break;
        }
    }
    path
}

#[test]
fn they_pass_the_checker() {
    for seed in 0..2_000 {
        let image = Family::Ranges.case(seed).image;
        let refusal = match checked(&image) {
            Answer::Refused(refusal) => Some(refusal),
            _ => None,
        };
        assert_eq!(refusal, None, "{seed}");
    }
}

#[test]
fn they_have_everything() {
    let mut often: BTreeMap<&str, u32> = BTreeMap::new();
    let mut count_if = |holds: bool, what| *often.entry(what).or_default() += u32::from(holds);
    let random = &mut Random::new(5);
    for seed in 0..2_000 {
        let (routine, _) = pass(&Family::Ranges.case(seed).image).expect("it passes");
        let limits = starts(random, routine.registers as usize);
        count_if(has_loop(&routine), "a Loop");
        let moved = |found: &[Range]| found.iter().zip(&limits).any(|(end, start)| end != start);
        let wider = |found: &[Range]| found.iter().any(|end| end.lowest < end.highest);
        match ends(&routine, &limits) {
            Ok(found) => {
                count_if(true, "ends");
                count_if(moved(&found), "ends that are not the starts");
                count_if(wider(&found), "ends apart");
            }
            Err(refusal) => {
                count_if(refusal.number == 40, "too many steps");
                count_if(refusal.number == 42, "crossed");
                if refusal.number != 44 {
                    continue;
                }
                count_if(true, "unsafe");
                let path = around(&routine, refusal.place);
                let within = |test: fn(&Node) -> bool| path.iter().any(test);
                count_if(within(|node| matches!(node, Node::Abs(_))), "unsafe in a function");
                count_if(within(|node| matches!(node, Node::Call(_))), "unsafe in an actual");
                count_if(within(|node| matches!(node, Node::Bind(_))), "unsafe in a declaration");
                count_if(within(|node| matches!(node, Node::Ref(_))), "unsafe in a Ref");
                let second = path.windows(2).any(|pair| match pair[0] {
                    Node::Cond(node) => pair[1].place() == Node::from(&node.second).place(),
                    _ => false,
                });
                let first = path.windows(2).any(|pair| match pair[0] {
                    Node::Cond(node) => pair[1].place() == Node::from(&node.first).place(),
                    _ => false,
                });
                count_if(first, "unsafe in a first command");
                count_if(second, "unsafe in a second command");
            }
        }
    }
    let least = [
        ("a Loop", 60),
        ("ends", 1_000),
        ("ends that are not the starts", 700),
        ("ends apart", 800),
        ("too many steps", 5),
        ("crossed", 60),
        ("unsafe", 120),
        ("unsafe in a function", 40),
        ("unsafe in an actual", 10),
        ("unsafe in a declaration", 40),
        ("unsafe in a Ref", 20),
        ("unsafe in a first command", 30),
        ("unsafe in a second command", 30),
    ];
    for (what, least) in least {
        assert!(often.get(what).is_some_and(|times| *times >= least), "{what} in {often:?}");
    }
}

/// Equal, narrow, wide, at an end of the integers, crossed.
#[test]
fn limits_of_every_sort() {
    let random = &mut Random::new(6);
    let mut often: BTreeMap<&str, u32> = BTreeMap::new();
    let mut count_if = |holds: bool, what| *often.entry(what).or_default() += u32::from(holds);
    for count in (0..=16).cycle().take(1_700) {
        let limits = starts(random, count);
        assert_eq!(limits.len(), count);
        let crossed = limits.iter().filter(|range| range.lowest > range.highest).count();
        assert!(crossed <= 1);
        count_if(crossed == 1, "crossed");
        for range in limits.iter().filter(|range| range.lowest <= range.highest) {
            let length = i128::from(range.highest) - i128::from(range.lowest);
            count_if(length == 0, "equal");
            count_if((1..=40).contains(&length), "narrow");
            count_if(length > 1_000, "wide");
            count_if(range.lowest == i64::MIN, "from the lowest");
            count_if(range.highest == i64::MAX, "to the highest");
            count_if(*range == Range::new(i64::MIN, i64::MAX), "all");
            for _ in 0..4 {
                assert!(range.holds(within(random, *range)));
            }
        }
    }
    for (what, least) in [
        ("crossed", 80),
        ("equal", 1_000),
        ("narrow", 3_000),
        ("wide", 500),
        ("from the lowest", 100),
        ("to the highest", 100),
        ("all", 5),
    ] {
        assert!(often[what] >= least, "{what} in {often:?}");
    }
}
