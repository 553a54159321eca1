//! The work words after each answer, for slices of many lengths: 22 touches nothing, and
//! every other answer, 40 too, leaves the first 8,192 words 0 and the rest as they were.

use crate::helpers::*;
use crate::image_calls::{self, contents_change_nothing, WORK_LENGTHS};
use compare::engine;
use compare::needs::{self, reply_of};
use second::build::*;
use second::engine::WORK_WORDS;
use second::generate::random::Random;
use second::needs::{Needs, EFFORT};
use second::tree::*;
use second::Refusal;

/// So many functions each of which calls the one before it twice.
fn doubling(count: Name) -> Command {
    let once = |name: Name| call(name, vec![]);
    let function = |name: Name| {
        let twice = || cseq(once(name - 1), once(name - 1));
        let command = if name == 1 { assign(0, num(1)) } else { twice() };
        bind_abs(name, &[], block(bind(63, num(0)), command))
    };
    (1..=count).rev().fold(once(count), |command, name| blk(function(name), command))
}

/// An image for each answer, and some for which many work words are used.
fn images() -> Vec<Vec<u32>> {
    let mut all = image_calls::images();
    all.extend([17, 50, 5].map(|count| image(1, doubling(count))));
    all
}

#[test]
fn each_answer_with_each_length() {
    let random = &mut Random::new(3);
    for image in images() {
        for length in WORK_LENGTHS {
            let found = needs::compare(&image, length, random)
                .unwrap_or_else(|difference| panic!("{difference}"));
            let too_few = Needs::Refused(Refusal::whole(22));
            assert_eq!(found == too_few, length < WORK_WORDS, "work of {length} words");
        }
    }
}

#[test]
fn every_length_near_enough_words() {
    let random = &mut Random::new(4);
    for length in WORK_WORDS - 40..WORK_WORDS + 40 {
        let found = needs::compare(&CALCULATOR, length, random)
            .unwrap_or_else(|difference| panic!("{difference}"));
        assert_eq!(found.refusal().is_some(), length < WORK_WORDS, "work of {length} words");
    }
}

#[test]
fn what_the_work_words_hold_changes_nothing() {
    let known = |image: &[u32]| reply_of(second::needs(image, WORK_WORDS, EFFORT));
    let expected = images().into_iter().map(|image| (known(&image).expect("it is known"), image));
    contents_change_nothing(engine::needs, expected);
}
