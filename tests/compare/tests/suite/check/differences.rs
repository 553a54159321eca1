//! The comparison itself: functions that are wrong on purpose stand in the
//! engine's place, and each is found out and shown for what it is.

use crate::helpers::{papers_images, CALCULATOR, CALCULATOR_SHOWN};
use crate::image_calls::work_words_count;
use compare::check::{compare_with, reply_of};
use compare::engine::CheckReply;
use second::engine::WORK_WORDS;
use second::generate::random::Random;

/// What the second interpreter says, made by a function as a right engine would.
fn right(image: &[u32], work: &mut [u64]) -> CheckReply {
    let answer = second::check(image, work.len());
    second::engine::settle_work(work, answer.refusal());
    reply_of(answer)
}

/// An engine that settles the work words as it must, and answers so.
fn answering(reply: CheckReply) -> impl Fn(&[u32], &mut [u64]) -> CheckReply + Copy {
    move |image, work| {
        right(image, work);
        reply
    }
}

/// The text of the difference that must be found.
fn found(
    check: impl FnOnce(&[u32], &mut [u64]) -> CheckReply,
    image: &[u32],
    length: usize,
) -> String {
    let random = &mut Random::new(1);
    compare_with(check, image, length, random).expect_err("a difference").to_string()
}

#[test]
fn a_right_function_differs_nowhere() {
    let random = &mut Random::new(2);
    for (_, image, answer) in papers_images() {
        for length in [WORK_WORDS, WORK_WORDS + 7] {
            assert_eq!(compare_with(right, &image, length, random).unwrap(), answer);
        }
        assert!(compare_with(right, &image, 5, random).is_ok());
    }
}

#[test]
fn a_wrong_answer_is_shown_with_the_tree_and_the_words() {
    let refuse = answering(CheckReply { refusal: 11, value: 0, place: 2 });
    let expected = "\
check of 12 words, work slice of 8192 words
  the second interpreter says code 0 (refusal 0, value 0, place 0)
  the engine says             refused 11 at 2 (refusal 11, value 0, place 2)
";
    let shown = format!("{expected}{CALCULATOR_SHOWN}");
    assert_eq!(found(refuse, &CALCULATOR, WORK_WORDS), shown);
}

#[test]
fn an_image_with_no_node_is_shown_as_such() {
    let refuse = answering(CheckReply { refusal: 2, value: 0, place: 0 });
    let expected = "\
check of 2 words, work slice of 8192 words
  the second interpreter says command (refusal 0, value 8, place 0)
  the engine says             refused 2 at 0 (refusal 2, value 0, place 0)
the image as a tree:
registers 3
   - no routine
the image in hexadecimal:
0 3";
    assert_eq!(found(refuse, &[0, 3], WORK_WORDS), expected);
}

#[test]
fn an_image_that_is_no_tree_is_shown_as_its_words() {
    let pass = answering(CheckReply { refusal: 0, value: 8, place: 0 });
    let text = found(pass, &[2, 0, 15, 99, 0, 7], WORK_WORDS);
    assert!(text.contains("the engine says             command ("), "{text}");
    assert!(text.contains("the image is no tree (3 at 1)"), "{text}");
    assert!(text.contains("   0 kind 15 (Not), operand 0\n"), "{text}");
    assert!(text.contains("   1 kind 99 (no kind), operand 7\n"), "{text}");
    for image in [&[][..], &[7], &[u32::MAX, 1], &[3, 0, 1], &[0, 0, 1], &[0, 17]] {
        let text = found(pass, image, WORK_WORDS);
        assert!(text.contains("is no tree"), "{text}");
    }
}

#[test]
fn each_number_of_the_reply_counts() {
    let wrongs: [fn(&mut CheckReply); 3] =
        [|reply| reply.refusal ^= 1, |reply| reply.value ^= 1, |reply| reply.place ^= 1];
    for (_, image, _) in papers_images() {
        for wrong in wrongs {
            let check = |image: &[u32], work: &mut [u64]| {
                let mut reply = right(image, work);
                wrong(&mut reply);
                reply
            };
            assert!(found(check, &image, WORK_WORDS).contains("the engine says"));
        }
    }
}

#[test]
fn work_words_left_or_touched_are_found() {
    work_words_count(&right, |call, image, length| found(call, image, length));
}
