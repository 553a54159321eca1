//! Claims about the ranges of generated images: runs from starts within the limits end within
//! the ends and meet nothing but 30; from starts that are known exactly the ends are the run's
//! registers; narrower starts have no wider ends; and steps and room are those of the needs.

use crate::helpers::*;
use second::both_ways::both_ways;
use second::carried::Range;
use second::engine::{pass, Outcome, MOST_BUDGET};
use second::execution::reasons_of_room;
use second::generate::random::Random;
use second::generate::starts::{starts, within};
use second::generate::Family;
use second::needs::{has_loop, needs, Figures, Needs, Steps, MOST_STEPS};
use second::node::Node;
use second::ranges::ends;
use second::refusal;
use second::tree::Routine;

/// The images of a family that pass, so many seeds gone through.
fn passing(family: Family, count: u64) -> impl Iterator<Item = (Vec<u32>, Routine)> {
    (0..count).filter_map(move |seed| {
        let image = family.case(0xace_0000 + seed).image;
        let (routine, _) = pass(&image).ok()?;
        Some((image, routine))
    })
}

const FAMILIES: [(Family, u64); 8] = [
    (Family::Ranges, 800),
    (Family::Small, 300),
    (Family::Medium, 60),
    (Family::Sequences, 200),
    (Family::Choices, 100),
    (Family::Functions, 100),
    (Family::Limits, 150),
    (Family::Empty, 50),
];

/// Whatever the budget, a run is withheld for nothing but 30; where it ends, each register is
/// within its ends.
#[test]
fn runs_end_within_the_ends() {
    let random = &mut Random::new(1);
    let (mut ended, mut cut_off) = (0, 0);
    for (family, count) in FAMILIES {
        for (image, routine) in passing(family, count) {
            let limits = starts(random, routine.registers as usize);
            let Ok(found) = ends(&routine, &limits) else { continue };
            for _ in 0..6 {
                let from: Vec<i64> = limits.iter().map(|range| within(random, *range)).collect();
                let (reply, left) = run_at(&image, &from, MOST_BUDGET);
                assert_eq!(reply.refusal(), None, "{family:?} {from:?}");
                for (register, range) in left.iter().zip(&found) {
                    assert!(range.holds(*register), "{left:?} in {found:?}, {family:?}");
                }
                ended += 1;
                let budget = random.below(reply.steps as usize + 1) as u64;
                let (cut, _) = run_at(&image, &from, budget);
                let expected = if budget < reply.steps { refused(30, 0) } else { reply.outcome };
                assert_eq!(cut.outcome, expected);
                cut_off += u32::from(budget < reply.steps);
            }
        }
    }
    assert!(ended > 4_000 && cut_off > 3_000, "{ended}, {cut_off}");
}

/// Where each register is known exactly, so is each end; and it is 44 just where a run is
/// refused with 31 or 32.
#[test]
fn exact_starts_have_exact_ends() {
    let random = &mut Random::new(2);
    let (mut exact, mut unsafe_ones) = (0, 0);
    for (family, count) in
        FAMILIES.into_iter().chain([(Family::Faulty, 300), (Family::Divisions, 600)])
    {
        for (image, routine) in passing(family, count) {
            let limits = starts(random, routine.registers as usize);
            if limits.iter().any(|range| range.lowest > range.highest) {
                continue;
            }
            let from: Vec<i64> = limits.iter().map(|range| within(random, *range)).collect();
            let limits: Vec<Range> = from.iter().map(|start| Range::new(*start, *start)).collect();
            let found = match ends(&routine, &limits) {
                Err(refusal) if refusal.number != refusal::UNSAFE_ARITHMETIC => continue,
                found => found,
            };
            let (reply, left) = run_at(&image, &from, MOST_BUDGET);
            match (found, reply.outcome) {
                (Ok(found), Outcome::Refused(refusal)) => panic!("{refusal:?}, {found:?}"),
                (Ok(found), _) => {
                    let left = left.iter().map(|register| Range::new(*register, *register));
                    assert_eq!(found, left.collect::<Vec<_>>(), "{family:?}");
                    exact += 1;
                }
                (Err(_), outcome) => {
                    assert!([refused(31, 0), refused(32, 0)].contains(&outcome), "{outcome:?}");
                    unsafe_ones += 1;
                }
            }
        }
    }
    assert!(exact > 600 && unsafe_ones > 150, "{exact}, {unsafe_ones}");
}

/// From limits within others the ends are within those of the others, and there is no 44 where
/// those have none.
#[test]
fn narrower_starts_have_no_wider_ends() {
    let random = &mut Random::new(3);
    let mut compared = 0;
    for (family, count) in FAMILIES {
        for (_, routine) in passing(family, count) {
            let wide = starts(random, routine.registers as usize);
            let Ok(wide_ends) = ends(&routine, &wide) else { continue };
            let narrow = wide.iter().map(|range| {
                let (one, other) = (within(random, *range), within(random, *range));
                Range::new(one.min(other), one.max(other))
            });
            let narrow: Vec<Range> = narrow.collect();
            let narrow_ends = ends(&routine, &narrow).expect("ends from within");
            for (narrow, wide) in narrow_ends.iter().zip(&wide_ends) {
                assert_eq!(narrow.widened(*wide), *wide, "{family:?}");
            }
            compared += 1;
        }
    }
    assert!(compared > 600, "{compared}");
}

/// The run through both commands has the room figures that are found by going through all free
/// runs, and at least their steps: just as many where there is no Cond.
#[test]
fn steps_and_room_of_both_ways_are_those_of_the_needs() {
    let (mut with_choices, mut without) = (0, 0);
    for (family, count) in FAMILIES {
        for (_, routine) in passing(family, count) {
            if has_loop(&routine) {
                continue;
            }
            let nodes = routine.root.preorder();
            let chooses = nodes.iter().any(|(node, _)| matches!(node, Node::Cond(_)));
            let both = both_ways(&routine, MOST_STEPS);
            match needs(&routine, 200_000) {
                Needs::Figures(Figures { room, steps: Steps::Most(steps) }) => {
                    let Some(both) = both else {
                        assert!(chooses, "{family:?}");
                        continue;
                    };
                    assert_eq!(both.room, room, "{family:?}");
                    assert!(both.steps >= steps && (chooses || both.steps == steps), "{family:?}");
                    *(if chooses { &mut with_choices } else { &mut without }) += 1;
                }
                Needs::Refused(_) => assert_eq!(both, None, "{family:?}"),
                _ => {}
            }
        }
    }
    assert!(with_choices > 500 && without > 100, "{with_choices}, {without}");
}

/// The refusal told is the first of its order, each told from its own cause.
#[test]
fn each_refusal_by_its_cause() {
    let random = &mut Random::new(4);
    let mut often = [0; 45];
    for (family, count) in FAMILIES {
        for (_, routine) in passing(family, count) {
            let limits = starts(random, routine.registers as usize);
            let number = ends(&routine, &limits).err().map_or(0, |refusal| refusal.number);
            often[number as usize] += 1;
            let expected = if limits.iter().any(|range| range.lowest > range.highest) {
                42
            } else if has_loop(&routine) {
                43
            } else {
                match both_ways(&routine, MOST_STEPS) {
                    None => 40,
                    Some(both) => {
                        reasons_of_room(both.room).into_iter().flatten().min().unwrap_or(0)
                    }
                }
            };
            assert!(number == expected || (expected == 0 && number == 44), "{number}, {expected}");
        }
    }
    for (number, least) in
        [(0, 600), (33, 3), (34, 3), (35, 3), (36, 3), (40, 3), (42, 60), (43, 60), (44, 50)]
    {
        assert!(often[number] >= least, "{number}: {}", often[number]);
    }
}
