//! The comparison of runs itself: functions that are wrong on purpose stand in
//! the engine's place, and each is found out and shown for what it is.

use crate::helpers::{papers_images, with_starts, CALCULATOR, CALCULATOR_SHOWN};
use compare::engine::RunReply;
use compare::run::{as_words, compare_narrowing_with, compare_with, reply_of};
use second::build::*;
use second::engine::{settle_work, MOST_BUDGET, WORK_WORDS};
use second::generate::random::Random;
use second::generate::Case;

/// What the second interpreter says, made by a function as a right engine would.
fn right(image: &[u32], registers: &mut [u64], budget: u64, work: &mut [u64]) -> RunReply {
    let mut integers: Vec<i64> = registers.iter().map(|word| *word as i64).collect();
    let reply = second::run(image, &mut integers, budget, work.len());
    registers.copy_from_slice(&as_words(&integers));
    settle_work(work, reply.refusal());
    reply_of(reply)
}

/// The text of the difference that must be found.
fn found(run: impl FnOnce(&[u32], &mut [u64], u64, &mut [u64]) -> RunReply, case: &Case) -> String {
    compare_with(run, case, &mut Random::new(1)).expect_err("a difference").to_string()
}

fn papers_calls() -> Vec<Case> {
    let call = |(_, image, _): (_, Vec<u32>, _)| {
        let count = image[1] as usize;
        with_starts(image, &vec![3; count])
    };
    papers_images().into_iter().map(call).collect()
}

#[test]
fn a_right_function_differs_nowhere() {
    let random = &mut Random::new(2);
    for case in papers_calls() {
        for work_length in [5, WORK_WORDS, WORK_WORDS + 7] {
            for budget in [0, 4, MOST_BUDGET, MOST_BUDGET + 1] {
                let case = Case { work_length, budget, ..case.clone() };
                assert!(compare_with(right, &case, random).is_ok());
            }
        }
    }
}

#[test]
fn a_wrong_reply_is_shown_with_the_tree_and_the_words() {
    let minus_two = |image: &[u32], registers: &mut [u64], budget, work: &mut [u64]| {
        let reply = right(image, registers, budget, work);
        RunReply { value: -2_i64 as u64, ..reply }
    };
    let expected = "\
run of 12 words, registers [], budget 1000000, work slice of 8192 words
  the second interpreter says number 25, steps 7, most 0 0 3 4 \
(refusal 0, outcome 1, value 0x19, place 0)
  the engine says             number -2, steps 7, most 0 0 3 4 \
(refusal 0, outcome 1, value 0xfffffffffffffffe, place 0)
";
    let shown = format!("{expected}{CALCULATOR_SHOWN}");
    assert_eq!(found(minus_two, &with_starts(CALCULATOR.to_vec(), &[])), shown);
}

#[test]
fn each_number_of_the_reply_counts() {
    let wrongs: [fn(&mut RunReply); 9] = [
        |reply| reply.refusal ^= 1,
        |reply| reply.outcome ^= 1,
        |reply| reply.value ^= 1,
        |reply| reply.place ^= 1,
        |reply| reply.steps ^= 1,
        |reply| reply.cells ^= 1,
        |reply| reply.bindings ^= 1,
        |reply| reply.values ^= 1,
        |reply| reply.control ^= 1,
    ];
    for case in papers_calls() {
        for wrong in wrongs {
            let run = |image: &[u32], registers: &mut [u64], budget, work: &mut [u64]| {
                let mut reply = right(image, registers, budget, work);
                wrong(&mut reply);
                reply
            };
            assert!(found(run, &case).contains("the engine says"));
        }
    }
}

/// The marks of a run, with one state left out, one too many, or two of them exchanged.
#[test]
fn marks_of_other_states_are_found() {
    let calls = papers_calls();
    let exchanged = |one: fn(&mut RunReply) -> &mut u64, other: fn(&mut RunReply) -> &mut u64| {
        move |image: &[u32], registers: &mut [u64], budget, work: &mut [u64]| {
            let mut reply = right(image, registers, budget, work);
            let (first, second) = (*one(&mut reply), *other(&mut reply));
            (*one(&mut reply), *other(&mut reply)) = (second, first);
            reply
        }
    };
    // Case I has more bindings than cells, and case A more control entries than values.
    let (product, function) = (&calls[0], &calls[6]);
    let values_and_control = exchanged(|reply| &mut reply.values, |reply| &mut reply.control);
    let text = found(values_and_control, product);
    assert!(text.contains(", most 0 0 3 4 ") && text.contains(", most 0 0 4 3 "), "{text}");
    let cells_and_bindings = exchanged(|reply| &mut reply.cells, |reply| &mut reply.bindings);
    let text = found(cells_and_bindings, function);
    assert!(text.contains(", most 2 4 8 8 ") && text.contains(", most 4 2 8 8 "), "{text}");
    // The state that a withheld step would leave.
    let late = |image: &[u32], registers: &mut [u64], budget, work: &mut [u64]| {
        let reply = right(image, &mut registers.to_vec(), budget + 1, work);
        let [cells, bindings, values, control] = reply.marks();
        let reply = right(image, registers, budget, work);
        RunReply { cells, bindings, values, control, ..reply }
    };
    let text = found(late, &Case { budget: 0, ..product.clone() });
    assert!(text.contains(", most 0 0 0 1 ") && text.contains(", most 0 0 0 3 "), "{text}");
    // Those of the image with a refused call.
    let kept = |image: &[u32], registers: &mut [u64], budget, work: &mut [u64]| {
        let reply = right(image, registers, budget, work);
        RunReply { cells: registers.len() as u64, ..reply }
    };
    let refused = Case { budget: MOST_BUDGET + 1, ..function.clone() };
    let text = found(kept, &refused);
    assert!(text.contains(", most 0 0 0 0 ") && text.contains(", most 1 0 0 0 "), "{text}");
}

#[test]
fn a_wrong_register_is_found() {
    let case = with_starts(image(3, assign(1, num(7))), &[4, 5, 6]);
    for index in 0..3 {
        let run = |image: &[u32], registers: &mut [u64], budget, work: &mut [u64]| {
            let reply = right(image, registers, budget, work);
            registers[index] ^= 1 << 63;
            reply
        };
        let text = found(run, &case);
        assert!(text.contains(&format!("the register slice: word {index} is 80000000")), "{text}");
        assert!(!text.contains("the engine says"), "{text}");
    }
}

/// Registers that a withheld step has changed, or that are not there yet.
#[test]
fn registers_of_another_step_are_found() {
    let case = Case { budget: 2, ..with_starts(image(1, assign(0, num(7))), &[5]) };
    let late = |image: &[u32], registers: &mut [u64], budget, work: &mut [u64]| {
        let reply = right(image, &mut registers.to_vec(), budget, work);
        right(image, registers, budget + 1, work);
        reply
    };
    let text = found(late, &case);
    assert!(text.contains("the register slice: word 0 is 7 and must be 5"), "{text}");
    let never = |image: &[u32], registers: &mut [u64], budget, work: &mut [u64]| {
        right(image, &mut registers.to_vec(), budget, work)
    };
    let text = found(never, &Case { budget: 3, ..case });
    assert!(text.contains("the register slice: word 0 is 5 and must be 7"), "{text}");
}

/// The fault begins at one step and is told at its budget; one that is there from
/// the start, or that only a refused budget has, is told so.
#[test]
fn a_difference_is_told_where_it_begins() {
    let case = with_starts(image(2, factorial()), &[1, 3]);
    let told = |case: &Case, first: u64, last: u64| {
        let run = |image: &[u32], registers: &mut [u64], budget, work: &mut [u64]| {
            let reply = right(image, registers, budget, work);
            registers[0] ^= u64::from((first..=last).contains(&budget));
            reply
        };
        let random = &mut Random::new(3);
        let difference = compare_narrowing_with(run, case, random).expect_err("a difference");
        assert!(difference.faults[0].starts_with("the register slice: word 0"));
        difference.call
    };
    for first in [0, 1, 2, 40, 70, 71, 5_000, MOST_BUDGET] {
        let call = told(&case, first, MOST_BUDGET);
        assert!(call.contains(&format!(" budget {first},")), "{call}");
    }
    let budget = MOST_BUDGET + 1;
    let call = told(&Case { budget, ..case }, budget, budget);
    assert!(call.contains(" budget 1000001,"), "{call}");
}

#[test]
fn a_work_word_that_is_not_as_it_must_be_is_found() {
    let case = with_starts(CALCULATOR.to_vec(), &[]);
    let case = Case { work_length: WORK_WORDS + 10, ..case };
    for index in [0, WORK_WORDS / 2, WORK_WORDS - 1, WORK_WORDS, WORK_WORDS + 9] {
        let run = |image: &[u32], registers: &mut [u64], budget, work: &mut [u64]| {
            let reply = right(image, registers, budget, work);
            work[index] ^= 1;
            reply
        };
        let text = found(run, &case);
        assert!(text.contains(&format!("the work slice: word {index} is ")), "{text}");
    }
}

#[test]
fn refusals_21_and_22_that_touch_a_word_are_found() {
    let good = with_starts(image(1, assign(0, num(7))), &[5]);
    let budget = Case { budget: MOST_BUDGET + 1, ..good.clone() };
    let work = Case { work_length: WORK_WORDS - 1, ..good };
    for case in [budget, work] {
        let clears = |image: &[u32], registers: &mut [u64], budget, work: &mut [u64]| {
            work.fill(0);
            right(image, registers, budget, work)
        };
        assert!(found(clears, &case).contains("the work slice: word 0 is 0 and must be"));
        let sets = |image: &[u32], registers: &mut [u64], budget, work: &mut [u64]| {
            registers[0] = 0;
            right(image, registers, budget, work)
        };
        assert!(found(sets, &case).contains("the register slice: word 0 is 0 and must be 5"));
    }
}
