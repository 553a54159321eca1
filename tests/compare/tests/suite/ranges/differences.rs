//! The comparison itself: functions that are wrong on purpose stand in the engine's place,
//! and each is found out and shown for what it is.

use crate::helpers::{papers_images, CALCULATOR, CALCULATOR_SHOWN};
use crate::image_calls::work_words_count;
use compare::engine::RangesReply;
use compare::ranges::{compare_with, reply_of, run_within, Lists};
use second::build::*;
use second::carried::Range;
use second::engine::{settle_work, WORK_WORDS};
use second::generate::random::Random;

/// What the second interpreter says, made by a function as a right engine would.
fn right(image: &[u32], lowest: &mut [i64], highest: &mut [i64], work: &mut [u64]) -> RangesReply {
    let answer = second::ranges(image, lowest, highest, work.len());
    settle_work(work, answer.err());
    reply_of(answer)
}

/// The text of the difference that must be found.
fn found(
    ranges: impl FnOnce(&[u32], &mut [i64], &mut [i64], &mut [u64]) -> RangesReply,
    image: &[u32],
    before: &Lists,
    work_length: usize,
) -> String {
    let random = &mut Random::new(1);
    compare_with(ranges, image, before, work_length, random).expect_err("a difference").to_string()
}

fn none() -> Lists {
    Lists::of(&[])
}

/// Register 0 is one more, from 20 to 40.
fn one_more() -> (Vec<u32>, Lists) {
    (image(1, assign(0, sum(id(0), num(1)))), Lists::of(&[Range::new(20, 40)]))
}

#[test]
fn a_right_function_differs_nowhere() {
    let random = &mut Random::new(2);
    for (_, image, answer) in papers_images() {
        let before = Lists::of(&vec![Range::new(-1, 5); image[1] as usize]);
        for work_length in [WORK_WORDS, WORK_WORDS + 7] {
            let ranged = compare_with(right, &image, &before, work_length, random).unwrap();
            let refused = answer.refusal();
            assert!(refused.is_none() || ranged.answer == Err(refused.unwrap()));
        }
        assert!(compare_with(right, &image, &none(), WORK_WORDS, random).is_ok());
        assert!(compare_with(right, &image, &before, 5, random).is_ok());
    }
}

#[test]
fn a_wrong_answer_is_shown_with_the_tree_and_the_words() {
    let refuse = |image: &[u32], lowest: &mut [i64], highest: &mut [i64], work: &mut [u64]| {
        right(image, lowest, highest, work);
        RangesReply { refusal: 44, place: 2 }
    };
    let expected = "\
ranges of 12 words, from [] to [], work slice of 8192 words
  the second interpreter says ends (refusal 0, place 0)
  the engine says             refused 44 at 2 (refusal 44, place 2)
";
    let shown = format!("{expected}{CALCULATOR_SHOWN}");
    assert_eq!(found(refuse, &CALCULATOR, &none(), WORK_WORDS), shown);
}

#[test]
fn each_number_of_the_reply_counts() {
    let wrongs: [fn(&mut RangesReply); 2] = [|reply| reply.refusal ^= 1, |reply| reply.place ^= 1];
    for (_, image, _) in papers_images() {
        for wrong in wrongs {
            let ranges =
                |image: &[u32], lowest: &mut [i64], highest: &mut [i64], work: &mut [u64]| {
                    let mut reply = right(image, lowest, highest, work);
                    wrong(&mut reply);
                    reply
                };
            for count in [0, image[1] as usize] {
                let before = Lists::of(&vec![Range::new(1, 2); count]);
                let text = found(ranges, &image, &before, WORK_WORDS);
                assert!(text.contains("the engine says"), "{text}");
            }
        }
    }
}

/// An end that is one off, in either list, is shown; so is a list that a refusal has changed.
#[test]
fn each_end_counts() {
    let (image, before) = one_more();
    for by in [-1, 1] {
        let low = |image: &[u32], lowest: &mut [i64], highest: &mut [i64], work: &mut [u64]| {
            let reply = right(image, lowest, highest, work);
            lowest[0] += by;
            reply
        };
        let text = found(low, &image, &before, WORK_WORDS);
        assert!(text.contains("  the lowest: word 0 is "), "{text}");
        assert!(text.contains(&format!("they are [{}] and must be [21]", 21 + by)), "{text}");
        let high = |image: &[u32], lowest: &mut [i64], highest: &mut [i64], work: &mut [u64]| {
            let reply = right(image, lowest, highest, work);
            highest[0] += by;
            reply
        };
        for work_length in [WORK_WORDS, 5] {
            let text = found(high, &image, &before, work_length);
            assert!(text.contains("  the highest: word 0 is "), "{text}");
        }
    }
    // Ends that are given though the second list is too long.
    let hasty = |_: &[u32], lowest: &mut [i64], _: &mut [i64], work: &mut [u64]| {
        lowest[0] = 21;
        work[..WORK_WORDS].fill(0);
        RangesReply { refusal: 20, place: 0 }
    };
    let longer = Lists { highest: vec![40, 1], ..before };
    let text = found(hasty, &image, &longer, WORK_WORDS);
    assert!(text.contains("they are [21] and must be [20]"), "{text}");
}

/// A run that ends outside the ends, or is refused with another reason than 30.
#[test]
fn runs_that_leave_the_ends_are_found() {
    let random = &mut Random::new(3);
    let (image, _) = one_more();
    let starts = [Range::new(20, 40)];
    assert!(run_within(&image, &starts, &[Range::new(21, 41)], random).unwrap());
    let text = run_within(&image, &starts, &[Range::new(50, 60)], random).unwrap_err().to_string();
    assert!(
        text.contains("  register 0 is left at ") && text.contains("range is 50..60"),
        "{text}"
    );
    let all = [Range::new(i64::MIN, i64::MAX)];
    let over = [Range::new(i64::MAX, i64::MAX)];
    let text = run_within(&image, &over, &all, random).unwrap_err().to_string();
    assert!(text.contains("  the run is refused with 32"), "{text}");
}

#[test]
fn work_words_left_or_touched_are_found() {
    let settled = |image: &[u32], work: &mut [u64]| {
        right(image, &mut [], &mut [], work);
    };
    work_words_count(&settled, |call, image, work_length| {
        let ranges = |image: &[u32], lowest: &mut [i64], highest: &mut [i64], work: &mut [u64]| {
            let work_length = work.len();
            call(image, work);
            reply_of(second::ranges(image, lowest, highest, work_length))
        };
        found(ranges, image, &none(), work_length)
    });
}
