//! The work words after each answer, for slices of many lengths: 22 touches
//! nothing, and every other answer leaves the first 8,192 words 0 and the rest
//! as they were.

use crate::helpers::*;
use crate::image_calls::{contents_change_nothing, WORK_LENGTHS};
use compare::check::reply_of;
use compare::engine;
use second::build::*;
use second::encode;
use second::engine::{Answer, WORK_WORDS};
use second::generate::limits::with_nodes;
use second::generate::random::Random;

/// An image for each answer the checker has.
fn every_answer() -> Vec<(Answer, Vec<u32>)> {
    let mut all: Vec<_> =
        papers_images().into_iter().map(|(_, image, answer)| (answer, image)).collect();
    let unnamed = || block(bind(1, num(0)), assign(0, num(0)));
    let repeated = blk(bind_abs(1, &[(2, 0), (2, 0)], unnamed()), call(1, vec![]));
    let both = |first, second| blk(dseq(first, second), assign(0, num(0)));
    let twice = both(bind(1, num(1)), bind(1, id(1)));
    all.extend([
        (Answer::Code(1), image(0, boo(true))),
        (Answer::Code(2), image(1, deref(0))),
        (Answer::Command, encode(&with_nodes(2_000))),
        (Answer::Command, vec![0, 0]),
        (Answer::Command, vec![0, 16]),
        (refused(1, 0), vec![]),
        (refused(1, 0), vec![1]),
        (refused(1, 0), vec![1, 0, 1]),
        (refused(1, 0), vec![0, 0, 1]),
        (refused(2, 0), vec![0, 17]),
        (refused(2, 0), encode(&with_nodes(2_001))),
        (refused(3, 0), vec![1, 0, 99, 0]),
        (refused(4, 0), vec![1, 0, 2, 2]),
        (refused(5, 0), vec![1, 0, 30, 0]),
        (refused(5, 1), vec![1, 0, 15, 0]),
        (refused(5, 1), vec![2, 0, 1, 1, 0, 0]),
        (refused(6, 64), image(0, (0..64).fold(boo(true), |operand, _| not(operand)))),
        (refused(10, 0), image(0, id(0))),
        (refused(11, 0), image(0, sum(num(1), boo(true)))),
        (refused(12, 4), image(1, repeated)),
        (refused(12, 1), image(1, twice)),
        (Answer::Command, image(1, both(bind(1, num(1)), bind_ref(2, id(1))))),
        (refused(10, 3), image(1, both(bind(2, id(1)), bind(1, num(1))))),
        (refused(11, 5), image(1, both(bind(0, boo(true)), bind(1, sum(id(0), num(1)))))),
        (Answer::Command, image(1, cond(boo(true), assign(0, num(1)), assign(0, num(2))))),
        (refused(11, 0), image(1, cond(num(1), assign(0, num(1)), assign(0, num(2))))),
        (refused(10, 4), image(1, cond(boo(true), assign(0, num(1)), assign(1, num(2))))),
        (refused(4, 0), vec![4, 0, 25, 2, 24, 24, 1, 1, 0, 0]),
        (refused(5, 3), vec![3, 0, 25, 2, 24, 0, 1, 0]),
        (refused(13, 3), image(1, blk(bind(1, num(0)), assign(1, num(0))))),
        (refused(14, 3), image(1, blk(bind(1, num(0)), call(1, vec![])))),
    ]);
    all
}

#[test]
fn each_answer_with_each_length() {
    let random = &mut Random::new(3);
    for (answer, image) in every_answer() {
        for length in WORK_LENGTHS {
            let expected = if length < WORK_WORDS { refused(22, 0) } else { answer };
            assert_eq!(agreed_at(&image, length, random), expected, "work of {length} words");
        }
    }
}

#[test]
fn every_length_near_enough_words() {
    let random = &mut Random::new(4);
    for length in WORK_WORDS - 40..WORK_WORDS + 40 {
        let expected = if length < WORK_WORDS { refused(22, 0) } else { Answer::Code(0) };
        assert_eq!(agreed_at(&CALCULATOR, length, random), expected, "work of {length} words");
    }
}

#[test]
fn what_the_work_words_hold_changes_nothing() {
    let expected = every_answer().into_iter().map(|(answer, image)| (reply_of(answer), image));
    contents_change_nothing(engine::check, expected);
}
