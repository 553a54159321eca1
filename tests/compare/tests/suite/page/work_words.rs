//! The work words after each answer, for slices of many lengths: 22 touches nothing, and
//! every other answer, 41 too, leaves the first 8,192 words 0 and the rest as they were.

use crate::helpers::*;
use crate::image_calls::{contents_change_nothing, images, WORK_LENGTHS};
use compare::engine;
use compare::page::{self, reply_of, LINE};
use second::engine::WORK_WORDS;
use second::generate::random::Random;
use second::Refusal;

/// Lent pages for an image: a byte too short, if that can be, and exact.
fn pages(image: &[u32]) -> Vec<Vec<u8>> {
    let lines = LINE * image.first().map_or(0, |nodes| *nodes as usize);
    vec![vec![200; lines.saturating_sub(1)], vec![200; lines]]
}

#[test]
fn each_answer_with_each_length() {
    let random = &mut Random::new(3);
    for image in images() {
        for before in pages(&image) {
            for length in WORK_LENGTHS {
                let paged = page::compare(&image, &before, length, random)
                    .unwrap_or_else(|difference| panic!("{difference}"));
                let too_few = Err(Refusal::whole(22));
                assert_eq!(paged.answer == too_few, length < WORK_WORDS, "work of {length} words");
            }
        }
    }
}

#[test]
fn every_length_near_enough_words() {
    let random = &mut Random::new(4);
    for length in WORK_WORDS - 40..WORK_WORDS + 40 {
        for (before, enough) in [(154, 41), (155, 0)] {
            let paged = page::compare(&CALCULATOR, &vec![200; before], length, random)
                .unwrap_or_else(|difference| panic!("{difference}"));
            let expected = if length < WORK_WORDS { 22 } else { enough };
            let number = paged.answer.err().map_or(0, |refusal| refusal.number);
            assert_eq!(number, expected, "work of {length} words");
        }
    }
}

/// Neither of the reply nor of the page.
#[test]
fn what_the_work_words_hold_changes_nothing() {
    for exact in [false, true] {
        let lent = |image: &[u32]| pages(image).swap_remove(usize::from(exact));
        let call = |image: &[u32], work: &mut [u64]| {
            let mut page = lent(image);
            (engine::page(image, &mut page, work), page)
        };
        let expected = images().into_iter().map(|image| {
            let mut page = lent(&image);
            let answer = second::page(&image, &mut page, WORK_WORDS);
            ((reply_of(answer), page), image)
        });
        contents_change_nothing(call, expected);
    }
}
