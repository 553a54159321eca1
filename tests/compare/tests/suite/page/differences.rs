//! The comparison itself: functions that are wrong on purpose stand in the engine's place,
//! and each is found out and shown for what it is.

use crate::helpers::{papers_images, CALCULATOR, CALCULATOR_SHOWN};
use crate::image_calls::work_words_count;
use compare::engine::PageReply;
use compare::page::{compare_with, reply_of, LINE};
use second::engine::{settle_work, WORK_WORDS};
use second::generate::random::Random;

/// What the second interpreter says, made by a function as a right engine would.
fn right(image: &[u32], page: &mut [u8], work: &mut [u64]) -> PageReply {
    let answer = second::page(image, page, work.len());
    settle_work(work, answer.err());
    reply_of(answer)
}

/// The text of the difference that must be found, with a lent page of so many bytes.
fn found(
    page: impl FnOnce(&[u32], &mut [u8], &mut [u64]) -> PageReply,
    image: &[u32],
    page_length: usize,
    work_length: usize,
) -> String {
    let random = &mut Random::new(1);
    let before = vec![b'#'; page_length];
    compare_with(page, image, &before, work_length, random).expect_err("a difference").to_string()
}

#[test]
fn a_right_function_differs_nowhere() {
    let random = &mut Random::new(2);
    for (_, image, answer) in papers_images() {
        let lines = LINE * image[0] as usize;
        for work_length in [WORK_WORDS, WORK_WORDS + 7] {
            let before = vec![b'#'; lines + 3];
            let paged = compare_with(right, &image, &before, work_length, random).unwrap();
            assert_eq!(paged.answer.err(), answer.refusal());
            assert_eq!(paged.page[lines..], *b"###");
        }
        assert!(compare_with(right, &image, &[], WORK_WORDS, random).is_ok());
        assert!(compare_with(right, &image, &[], 5, random).is_ok());
    }
}

#[test]
fn a_wrong_answer_is_shown_with_the_tree_and_the_words() {
    let refuse = |image: &[u32], page: &mut [u8], work: &mut [u64]| {
        right(image, page, work);
        PageReply { refusal: 11, place: 2 }
    };
    let expected = "\
page of 12 words, lent page of 160 bytes, work slice of 8192 words
  the second interpreter says page (refusal 0, place 0)
  the engine says             refused 11 at 2 (refusal 11, place 2)
";
    let shown = format!("{expected}{CALCULATOR_SHOWN}");
    assert_eq!(found(refuse, &CALCULATOR, 160, WORK_WORDS), shown);
}

#[test]
fn a_wrong_line_is_shown_in_letters() {
    let deeper = |image: &[u32], page: &mut [u8], work: &mut [u64]| {
        let reply = right(image, page, work);
        page[2 * LINE + 6] = b'3';
        reply
    };
    let expected = "\
page of 12 words, lent page of 160 bytes, work slice of 8192 words
  the page: byte 68 is 33 and must be 32; bytes that differ: 1
  its line 2 is `   2  3 Sum             0    5\\n` and must be `   2  2 Sum             0    5\\n`
";
    let shown = format!("{expected}{CALCULATOR_SHOWN}");
    assert_eq!(found(deeper, &CALCULATOR, 160, WORK_WORDS), shown);
}

#[test]
fn each_number_of_the_reply_counts() {
    let wrongs: [fn(&mut PageReply); 2] = [|reply| reply.refusal ^= 1, |reply| reply.place ^= 1];
    for (_, image, _) in papers_images() {
        for wrong in wrongs {
            let page = |image: &[u32], page: &mut [u8], work: &mut [u64]| {
                let mut reply = right(image, page, work);
                wrong(&mut reply);
                reply
            };
            for page_length in [0, LINE * image[0] as usize] {
                let text = found(page, &image, page_length, WORK_WORDS);
                assert!(text.contains("the engine says"), "{text}");
            }
        }
    }
}

/// Those of the lines and those beyond; and each one of a page that is refused.
#[test]
fn each_byte_of_the_page_counts() {
    for (page_length, work_length) in [(160, WORK_WORDS), (154, WORK_WORDS), (160, 5)] {
        for index in 0..page_length {
            let page = |image: &[u32], page: &mut [u8], work: &mut [u64]| {
                let reply = right(image, page, work);
                page[index] ^= 1;
                reply
            };
            let text = found(page, &CALCULATOR, page_length, work_length);
            assert!(text.contains(&format!("  the page: byte {index} is ")), "{text}");
            assert!(text.contains(&format!("  its line {} is `", index / LINE)), "{text}");
        }
    }
}

/// One that begins to write and then finds the page too short.
#[test]
fn a_refusal_that_writes_is_found() {
    let hasty = |image: &[u32], page: &mut [u8], work: &mut [u64]| {
        let mut lines = vec![0; LINE * image[0] as usize];
        right(image, &mut lines, work);
        page.copy_from_slice(&lines[..page.len()]);
        PageReply { refusal: 41, place: 0 }
    };
    let text = found(hasty, &CALCULATOR, 2 * LINE, WORK_WORDS);
    assert!(
        text.contains("the page: byte 0 is 20 and must be 23; bytes that differ: 62"),
        "{text}"
    );
}

#[test]
fn work_words_left_or_touched_are_found() {
    let settled = |image: &[u32], work: &mut [u64]| {
        right(image, &mut [0; 155], work);
    };
    work_words_count(&settled, |call, image, work_length| {
        let page = |image: &[u32], page: &mut [u8], work: &mut [u64]| {
            let work_length = work.len();
            call(image, work);
            reply_of(second::page(image, page, work_length))
        };
        found(page, image, 155, work_length)
    });
}
