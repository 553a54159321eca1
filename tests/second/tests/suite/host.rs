//! Refusals 20 to 22, the order of the tests, registers and work words.

use crate::helpers::*;
use second::build::*;
use second::engine::{check, run, settle_work, Answer, Outcome, MOST_BUDGET, WORK_WORDS};
use second::state::Heights;
use second::Refusal;

const MANY: u64 = MOST_BUDGET + 1;
const FEW: usize = WORK_WORDS - 1;

/// One register, and 5 stored in it.
fn good() -> Vec<u32> {
    image(1, assign(0, num(5)))
}

/// The right shape and an unbound name at 1.
fn ill_typed() -> Vec<u32> {
    image(1, assign(0, id(7)))
}

fn reply(image: &[u32], registers: &mut [i64], budget: u64, work: usize) -> Outcome {
    let before = registers.to_vec();
    let reply = run(image, registers, budget, work);
    assert_eq!(reply.steps, 0);
    assert_eq!(registers, before);
    reply.outcome
}

#[test]
fn a_run_tests_22_then_21_then_the_image_then_20() {
    assert_eq!(reply(&[], &mut [], MANY, FEW), refused(22, 0));
    assert_eq!(reply(&ill_typed(), &mut [], MANY, FEW), refused(22, 0));
    assert_eq!(reply(&ill_typed(), &mut [], MANY, WORK_WORDS), refused(21, 0));
    assert_eq!(reply(&[], &mut [], MANY, WORK_WORDS), refused(21, 0));
    assert_eq!(reply(&[], &mut [], 5, WORK_WORDS), refused(1, 0));
    assert_eq!(reply(&ill_typed(), &mut [], 5, WORK_WORDS), refused(10, 1));
    assert_eq!(reply(&good(), &mut [], 5, WORK_WORDS), refused(20, 0));
    // 20 comes before the first step, and so before 30.
    assert_eq!(reply(&good(), &mut [1, 2], 0, WORK_WORDS), refused(20, 0));
    assert_eq!(reply(&good(), &mut [1], 0, WORK_WORDS), refused(30, 0));
}

/// With no routine too, and then nothing is left to refuse: no step is withheld.
#[test]
fn a_run_with_no_routine_tests_the_same() {
    let good = image(1, absent());
    for work in [0, FEW] {
        assert_eq!(check(&good, work), answer_refused(22, 0));
        assert_eq!(reply(&good, &mut [], MANY, work), refused(22, 0));
    }
    assert_eq!(reply(&good, &mut [], MANY, WORK_WORDS), refused(21, 0));
    assert_eq!(reply(&[0, 1, 1], &mut [], 0, WORK_WORDS), refused(1, 0));
    assert_eq!(reply(&[0, 17], &mut [], 0, WORK_WORDS), refused(2, 0));
    assert_eq!(reply(&[0, 17, 1], &mut [], 0, WORK_WORDS), refused(2, 0));
    for length in [0, 2, 16, 17] {
        assert_eq!(reply(&good, &mut vec![7; length], 0, WORK_WORDS), refused(20, 0));
    }
    for work in [WORK_WORDS, WORK_WORDS + 1, usize::MAX] {
        assert_eq!(check(&good, work), Answer::Command);
        for budget in [0, 1, MOST_BUDGET] {
            assert_eq!(reply(&good, &mut [7], budget, work), Outcome::None);
        }
    }
}

#[test]
fn register_slices_of_other_lengths_are_20() {
    for length in [0, 2, 16, 17] {
        assert_eq!(reply(&good(), &mut vec![7; length], 5, WORK_WORDS), refused(20, 0));
    }
    let none = image(0, num(1));
    assert_eq!(reply(&none, &mut [7], 5, WORK_WORDS), refused(20, 0));
    let mut registers = [0];
    let done = ended(3, Heights::new(1, 1, 2, 2));
    assert_eq!(run(&good(), &mut registers, 5, WORK_WORDS), done);
    assert_eq!(registers, [5]);
}

#[test]
fn work_slices_of_8192_words_and_more_do() {
    for work in [0, 1, FEW] {
        assert_eq!(reply(&good(), &mut [7], 5, work), refused(22, 0));
        assert_eq!(check(&good(), work), answer_refused(22, 0));
        assert_eq!(check(&[], work), answer_refused(22, 0));
    }
    for work in [WORK_WORDS, WORK_WORDS + 1, usize::MAX] {
        assert_eq!(check(&good(), work), Answer::Command);
        assert_eq!(run(&good(), &mut [7], 5, work).steps, 3);
    }
    assert_eq!(WORK_WORDS, 8_192);
}

#[test]
fn the_checker_tests_22_then_the_image() {
    assert_eq!(check(&[], WORK_WORDS), answer_refused(1, 0));
    assert_eq!(check(&ill_typed(), WORK_WORDS), answer_refused(10, 1));
    assert_eq!(check(&ill_typed(), FEW), answer_refused(22, 0));
}

#[test]
fn work_words_end_as_0_except_after_21_and_22() {
    let settled = |refusal: Option<u32>| {
        let mut work = vec![9; WORK_WORDS + 3];
        settle_work(&mut work, refusal.map(Refusal::whole));
        work
    };
    let mut cleared = vec![0; WORK_WORDS];
    cleared.extend([9; 3]);
    let numbers = [1, 2, 3, 4, 5, 6, 10, 11, 12, 13, 14, 20, 30, 31, 32, 33, 34, 35, 36, 40, 41];
    for refusal in numbers.map(Some).into_iter().chain([None]) {
        assert_eq!(settled(refusal), cleared, "{refusal:?}");
    }
    for refusal in [21, 22] {
        assert_eq!(settled(Some(refusal)), vec![9; WORK_WORDS + 3]);
    }
    // A slice too short is touched nowhere.
    let mut short = vec![9; FEW];
    settle_work(&mut short, Some(Refusal::whole(22)));
    assert_eq!(short, vec![9; FEW]);
}
