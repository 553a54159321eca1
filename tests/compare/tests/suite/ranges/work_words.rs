//! The work words after each answer, for slices of many lengths: 22 touches nothing, and
//! every other answer leaves the first 8,192 words 0 and the rest as they were.

use crate::image_calls::{self, contents_change_nothing, WORK_LENGTHS};
use compare::engine;
use compare::ranges::{self, reply_of, Lists};
use second::build::*;
use second::carried::Range;
use second::engine::WORK_WORDS;
use second::generate::random::Random;
use second::generate::steps::of_steps;
use second::Refusal;

/// An image for each answer, and some for which many work words are used.
fn images() -> Vec<Vec<u32>> {
    let open = || lt(id(0), num(5));
    let nested = (0..30).fold(assign(0, num(1)), |inner, level| {
        cond(open(), blk(bind_ref(10 + level, num(level)), inner), assign(0, num(level)))
    });
    let mut all = image_calls::images();
    all.extend([
        image(1, nested),
        image(1, assign(0, div(num(1), id(0)))),
        image(1, of_steps(10_000)),
        image(1, of_steps(1_000_001)),
        image(1, repeat(boo(true), assign(0, num(1)))),
    ]);
    all
}

/// As many limits as the image has registers, fitting and crossed.
fn limits(image: &[u32]) -> Vec<Lists> {
    let count = image.get(1).map_or(0, |registers| *registers as usize).min(17);
    let of = |lowest, highest| Lists::of(&vec![Range::new(lowest, highest); count]);
    vec![of(0, 10), of(7, 7), of(1, 0)]
}

#[test]
fn each_answer_with_each_length() {
    let random = &mut Random::new(3);
    for image in images() {
        for before in limits(&image) {
            for length in WORK_LENGTHS {
                let ranged = ranges::compare(&image, &before, length, random)
                    .unwrap_or_else(|difference| panic!("{difference}"));
                let too_few = ranged.answer == Err(Refusal::whole(22));
                assert_eq!(too_few, length < WORK_WORDS, "work of {length} words");
            }
        }
    }
}

#[test]
fn every_length_near_enough_words() {
    let random = &mut Random::new(4);
    let image = image(1, assign(0, sum(id(0), num(1))));
    for length in WORK_WORDS - 40..WORK_WORDS + 40 {
        for (before, enough) in limits(&image).iter().zip([0, 0, 42]) {
            let ranged = ranges::compare(&image, before, length, random)
                .unwrap_or_else(|difference| panic!("{difference}"));
            let expected = if length < WORK_WORDS { 22 } else { enough };
            assert_eq!(ranged.refused(), expected, "work of {length} words");
        }
    }
}

/// Neither of the reply nor of the lists.
#[test]
fn what_the_work_words_hold_changes_nothing() {
    for which in 0..3 {
        let lent = |image: &[u32]| limits(image).swap_remove(which);
        let call = |image: &[u32], work: &mut [u64]| {
            let mut lists = lent(image);
            let reply = engine::ranges(image, &mut lists.lowest, &mut lists.highest, work);
            (reply, lists)
        };
        let expected = images().into_iter().map(|image| {
            let mut lists = lent(&image);
            let Lists { lowest, highest } = &mut lists;
            let answer = second::ranges(&image, lowest, highest, WORK_WORDS);
            ((reply_of(answer), lists), image)
        });
        contents_change_nothing(call, expected);
    }
}
