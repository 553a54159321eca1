//! Runs of images with no node, as of a slot with no routine, and of images near them:
//! every r up to 17, every count of words up to 6, and budgets, register slices and work
//! words on both sides of their limits.

use crate::helpers::*;
use compare::engine::{self, RunReply};
use compare::run::as_words;
use second::build::*;
use second::engine::{Outcome, MOST_BUDGET, WORK_WORDS};
use second::generate::random::Random;
use second::generate::Case;

/// So many starting values, none of which is 0.
fn starts(count: usize) -> Vec<i64> {
    [i64::MIN, -1, 1, i64::MAX].into_iter().cycle().take(count).collect()
}

/// 22 comes first, then 21, the image and 20; and then there is no step to withhold.
#[test]
fn of_every_length_every_r_and_every_fault_of_the_host() {
    let random = &mut Random::new(1);
    for registers in 0..=17_usize {
        for count in 0..=6 {
            for budget in [0, 1, 1_000_000, 1_000_001] {
                for length in [registers.saturating_sub(1), registers, registers + 1] {
                    for work_length in [8_191, 8_192, 8_200] {
                        let expected = match (work_length, budget, count, registers) {
                            (8_191, ..) => 22,
                            (_, 1_000_001, ..) => 21,
                            (_, _, 0 | 1, _) => 1,
                            (.., 17) => 2,
                            (_, _, 3.., _) => 1,
                            _ if length != registers => 20,
                            _ => 0,
                        };
                        let image = without_nodes(registers as u32, count, 1);
                        let registers = starts(length);
                        let case = Case { image, registers, budget, work_length };
                        let ran = agreed_run(&case, random);
                        assert_eq!(ran.refused(), expected, "{case:?}");
                        assert_eq!((ran.reply.steps, &ran.registers), (0, &case.registers));
                        assert!(expected != 0 || ran.reply.outcome == Outcome::None);
                    }
                }
            }
        }
    }
}

/// In the engine's numbers, which are asked of nobody: none in 0 steps, the registers as
/// they were, and the first 8,192 of the marked work words 0.
#[test]
fn none_in_0_steps_in_the_engines_numbers() {
    let marked: Vec<u64> = (1..=8_200).collect();
    for registers in 0..=16 {
        for budget in [0, 1, 2, MOST_BUDGET - 1, MOST_BUDGET] {
            let before = as_words(&starts(registers as usize));
            let (mut after, mut work) = (before.clone(), marked.clone());
            let reply = engine::run(&[0, registers], &mut after, budget, &mut work);
            // The only state has the registers' cells and bindings.
            let (cells, bindings) = (registers.into(), registers.into());
            let ended = RunReply { cells, bindings, ..RunReply::default() };
            assert_eq!(reply, ended, "r {registers}, budget {budget}");
            assert_eq!(after, before);
            assert!(work[..WORK_WORDS].iter().all(|word| *word == 0));
            assert_eq!(work[WORK_WORDS..], marked[WORK_WORDS..]);
        }
    }
}

/// Slots with a routine and slots without one in turn, on the same registers and work
/// words: the empty ones change nothing.
#[test]
fn empty_slots_between_others() {
    let count_up = image(1, assign(0, sum(id(0), num(1))));
    let mut work = vec![u64::MAX; WORK_WORDS];
    let mut registers = [0];
    for round in 1..=100 {
        let reply = engine::run(&count_up, &mut registers, MOST_BUDGET, &mut work);
        assert_eq!((reply.refusal, reply.steps, registers), (0, 6, [round]));
        let reply = engine::run(&[0, 1], &mut registers, round % 2, &mut work);
        assert_eq!((reply.refusal, reply.steps, registers), (0, 0, [round]));
        work.fill(round);
    }
}
