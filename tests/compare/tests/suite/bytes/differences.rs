//! The comparison of calls on bytes itself: functions that are wrong on purpose stand
//! in the engine's place, and each is found out and shown for what it is.

use crate::helpers::{papers_images, with_starts, CALCULATOR};
use compare::byte_calls::ByteCall;
use compare::bytes::{compare_check_with, compare_run_with};
use compare::engine::{CheckReply, RunReply};
use compare::{check, run};
use second::build::*;
use second::engine::{settle_work, MOST_BUDGET, WORK_WORDS};
use second::generate::random::Random;

/// What the second interpreter says, made by functions as a right engine would.
fn right_check(image: &[u8], work: &mut [u64]) -> CheckReply {
    let answer = second::bytes::check(image, work.len());
    settle_work(work, answer.refusal());
    check::reply_of(answer)
}

fn right_run(image: &[u8], registers: &mut [u8], budget: u64, work: &mut [u64]) -> RunReply {
    let reply = second::bytes::run(image, registers, budget, work.len());
    settle_work(work, reply.refusal());
    run::reply_of(reply)
}

/// The text of the difference that must be found.
fn found_check(check: impl FnOnce(&[u8], &mut [u64]) -> CheckReply, call: &ByteCall) -> String {
    compare_check_with(check, call, &mut Random::new(1)).expect_err("a difference").to_string()
}

fn found_run(
    run: impl FnOnce(&[u8], &mut [u8], u64, &mut [u64]) -> RunReply,
    call: &ByteCall,
) -> String {
    compare_run_with(run, call, &mut Random::new(1)).expect_err("a difference").to_string()
}

fn calculator() -> ByteCall {
    ByteCall::of(&with_starts(CALCULATOR.to_vec(), &[]))
}

/// Two registers, and 7 stored in the first.
fn storing() -> ByteCall {
    ByteCall::of(&with_starts(image(2, assign(0, num(7))), &[5, 6]))
}

fn papers_calls() -> Vec<ByteCall> {
    let call = |(_, image, _): (_, Vec<u32>, _)| {
        let count = image[1] as usize;
        ByteCall::of(&with_starts(image, &vec![3; count]))
    };
    papers_images().into_iter().map(call).collect()
}

#[test]
fn right_functions_differ_nowhere() {
    let random = &mut Random::new(2);
    for call in papers_calls() {
        for work_length in [5, WORK_WORDS, WORK_WORDS + 7] {
            for budget in [0, 4, MOST_BUDGET, MOST_BUDGET + 1] {
                let call = ByteCall { work_length, budget, ..call.clone() };
                assert!(compare_check_with(right_check, &call, random).is_ok());
                assert!(compare_run_with(right_run, &call, random).is_ok());
            }
        }
    }
}

#[test]
fn a_wrong_reply_is_shown_with_the_tree_and_the_bytes() {
    let call = ByteCall::of(&with_starts(image(1, id(0)), &[-2]));
    let truth = |image: &[u8], work: &mut [u64]| {
        right_check(image, work);
        CheckReply { refusal: 0, value: 1, place: 0 }
    };
    let shown = "\
the image as a tree:
registers 1
   0 Id 0
the image in hexadecimal:
1 1 3 0
the image byte by byte:
01 00 00 00 01 00 00 00 03 00 00 00 00 00 00 00";
    let expected = "\
check of 16 bytes, work slice of 8192 words
  the second interpreter says code 0 (refusal 0, value 0, place 0)
  the engine says             code 1 (refusal 0, value 1, place 0)
";
    assert_eq!(found_check(truth, &call), format!("{expected}{shown}"));
    let seven = |image: &[u8], registers: &mut [u8], budget, work: &mut [u64]| RunReply {
        value: 7,
        ..right_run(image, registers, budget, work)
    };
    let expected = "\
run of 16 bytes, 8 register bytes, budget 1000000, work slice of 8192 words
  the second interpreter says number -2, steps 1, most 1 1 1 1 \
(refusal 0, outcome 1, value 0xfffffffffffffffe, place 0)
  the engine says             number 7, steps 1, most 1 1 1 1 \
(refusal 0, outcome 1, value 0x7, place 0)
";
    let registers = "the registers byte by byte:\nfe ff ff ff ff ff ff ff";
    assert_eq!(found_run(seven, &call), format!("{expected}{shown}\n{registers}"));
}

#[test]
fn each_number_of_the_reply_counts() {
    let wrong_checks: [fn(&mut CheckReply); 3] =
        [|reply| reply.refusal ^= 1, |reply| reply.value ^= 1, |reply| reply.place ^= 1];
    let wrong_runs: [fn(&mut RunReply); 9] = [
        |reply| reply.refusal ^= 1,
        |reply| reply.outcome ^= 1,
        |reply| reply.value ^= 1,
        |reply| reply.place ^= 1,
        |reply| reply.steps ^= 1,
        |reply| reply.cells ^= 1,
        |reply| reply.bindings ^= 1,
        |reply| reply.values ^= 1,
        |reply| reply.control ^= 1,
    ];
    for call in papers_calls() {
        for wrong in wrong_checks {
            let check = |image: &[u8], work: &mut [u64]| {
                let mut reply = right_check(image, work);
                wrong(&mut reply);
                reply
            };
            assert!(found_check(check, &call).contains("the engine says"));
        }
        for wrong in wrong_runs {
            let run = |image: &[u8], registers: &mut [u8], budget, work: &mut [u64]| {
                let mut reply = right_run(image, registers, budget, work);
                wrong(&mut reply);
                reply
            };
            assert!(found_run(run, &call).contains("the engine says"));
        }
    }
}

#[test]
fn each_register_byte_counts() {
    for index in 0..16 {
        let run = |image: &[u8], registers: &mut [u8], budget, work: &mut [u64]| {
            let reply = right_run(image, registers, budget, work);
            registers[index] ^= 0x80;
            reply
        };
        let text = found_run(run, &storing());
        assert!(text.contains(&format!("the register bytes: byte {index} is 8")), "{text}");
        assert!(!text.contains("the engine says"), "{text}");
    }
}

#[test]
fn registers_in_another_order_are_found() {
    let most_byte_first = |image: &[u8], registers: &mut [u8], budget, work: &mut [u64]| {
        registers.chunks_exact_mut(8).for_each(<[u8]>::reverse);
        let reply = right_run(image, registers, budget, work);
        registers.chunks_exact_mut(8).for_each(<[u8]>::reverse);
        reply
    };
    let text = found_run(most_byte_first, &storing());
    assert!(text.contains("the register bytes: byte 0 is 0 and must be 7"), "{text}");
}

/// Engines that take whole words of a length, or the words that n asks for.
#[test]
fn lengths_that_are_cut_are_found() {
    let check_words =
        |image: &[u8], work: &mut [u64]| right_check(&image[..image.len() / 4 * 4], work);
    let check_nodes = |image: &[u8], work: &mut [u64]| right_check(&image[..48], work);
    for more in [1, 2, 3] {
        let mut call = calculator();
        call.image.extend(vec![0; more]);
        let says = "the engine says             code 0 ";
        assert!(found_check(check_words, &call).contains(says));
        assert!(found_check(check_nodes, &call).contains(says));
    }
    let run_whole = |image: &[u8], registers: &mut [u8], budget, work: &mut [u64]| {
        let whole = registers.len() / 8 * 8;
        right_run(image, &mut registers[..whole], budget, work)
    };
    let mut call = storing();
    call.registers.push(0);
    assert!(found_run(run_whole, &call).contains("the second interpreter says refused 20 at 0,"));
}

#[test]
fn a_work_word_that_is_not_as_it_must_be_is_found() {
    let call = ByteCall { work_length: WORK_WORDS + 10, ..storing() };
    for index in [0, WORK_WORDS / 2, WORK_WORDS - 1, WORK_WORDS, WORK_WORDS + 9] {
        let check = |image: &[u8], work: &mut [u64]| {
            let reply = right_check(image, work);
            work[index] ^= 1;
            reply
        };
        let run = |image: &[u8], registers: &mut [u8], budget, work: &mut [u64]| {
            let reply = right_run(image, registers, budget, work);
            work[index] ^= 1;
            reply
        };
        let expected = format!("the work slice: word {index} is ");
        assert!(found_check(check, &call).contains(&expected));
        assert!(found_run(run, &call).contains(&expected));
    }
}

#[test]
fn refusals_21_and_22_that_touch_anything_are_found() {
    let budget = ByteCall { budget: MOST_BUDGET + 1, ..storing() };
    let work = ByteCall { work_length: WORK_WORDS - 1, ..storing() };
    for call in [budget, work] {
        let clears = |image: &[u8], registers: &mut [u8], budget, work: &mut [u64]| {
            work.fill(0);
            right_run(image, registers, budget, work)
        };
        assert!(found_run(clears, &call).contains("the work slice: word 0 is 0 and must be"));
        let sets = |image: &[u8], registers: &mut [u8], budget, work: &mut [u64]| {
            registers[0] = 0;
            right_run(image, registers, budget, work)
        };
        assert!(found_run(sets, &call).contains("the register bytes: byte 0 is 0 and must be 5"));
    }
}
