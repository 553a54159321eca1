//! The work words and the registers after each answer of a run, for work slices
//! of many lengths: 21 and 22 touch nothing, and every other answer leaves the
//! first 8,192 words 0 and the rest as they were.

use crate::helpers::*;
use crate::image_calls::WORK_LENGTHS;
use compare::engine;
use compare::guarded::Guarded;
use compare::run::{as_words, reply_of};
use second::build::*;
use second::encode;
use second::engine::{MOST_BUDGET, WORK_WORDS};
use second::generate::limits::with_nodes;
use second::generate::random::Random;
use second::generate::tower::{Layer, Tower};
use second::generate::Case;

/// A tower of four functions that share these layers.
fn tower(layer: Layer, count: usize) -> Vec<u32> {
    let layers = vec![layer; count];
    let inner = assign(0, num(9));
    let tower = Tower { registers: 1, functions: 4, formals: 1, helper_formals: 0, layers, inner };
    encode(&tower.routine())
}

fn tower_reaching(values: usize, control: usize) -> Vec<u32> {
    let inner = cseq(assign(0, num(7)), assign(0, sum(num(1), num(1))));
    encode(&Tower::reaching(values, control, 11, inner).routine())
}

/// A tower whose inner Blk has a DSeq.
fn sequence_reaching(values: usize, control: usize) -> Vec<u32> {
    let both = dseq(bind(1, num(7)), bind(2, id(1)));
    let inner = cseq(assign(0, num(7)), blk(both, assign(0, id(2))));
    encode(&Tower::reaching(values, control, 11, inner).routine())
}

/// A tower whose inner command is a Cond with a comparison as its test.
fn choice_reaching(values: usize, control: usize) -> Vec<u32> {
    let choice = cond(lt(id(0), num(9)), assign(0, num(8)), assign(0, num(9)));
    let inner = cseq(assign(0, num(7)), choice);
    encode(&Tower::reaching(values, control, 11, inner).routine())
}

/// A call for each answer a run has, with the refusal's number or 0.
fn every_answer() -> Vec<(u32, Case)> {
    let zero = cseq(assign(0, num(7)), assign(0, div(num(1), num(0))));
    let over = cseq(assign(0, num(7)), assign(0, mul(id(1), id(1))));
    let either = |truth| cond(boo(truth), zero.clone(), assign(0, num(1)));
    let images = vec![
        (0, image(1, id(0))),
        (0, image(0, boo(true))),
        (0, image(16, deref(15))),
        (0, image(2, assign(0, num(7)))),
        (0, encode(&with_nodes(2_000))),
        (0, vec![0, 0]),
        (0, vec![0, 16]),
        (1, vec![1, 0, 1]),
        (1, vec![0, 2, 1]),
        (2, encode(&with_nodes(2_001))),
        (3, vec![1, 0, 99, 0]),
        (4, vec![1, 0, 2, 2]),
        (5, vec![2, 0, 1, 1, 0, 0]),
        (6, image(0, (0..64).fold(boo(true), |operand, _| not(operand)))),
        (10, image(3, id(9))),
        (11, image(1, sum(num(1), boo(true)))),
        (0, image(1, blk(dseq(bind(1, num(1)), bind_ref(2, id(1))), assign(0, id(2))))),
        (10, image(1, blk(dseq(bind(2, id(1)), bind(1, num(1))), assign(0, num(0))))),
        (12, image(1, blk(dseq(bind(1, num(1)), bind(1, id(1))), assign(0, num(0))))),
        (0, image(1, either(false))),
        (31, image(1, either(true))),
        (11, image(1, cond(num(1), assign(0, num(1)), assign(0, num(2))))),
        (13, image(1, blk(bind(1, num(0)), assign(1, num(0))))),
        (14, image(1, blk(bind(1, num(0)), call(1, vec![])))),
        (30, image(1, repeat(boo(true), assign(0, sum(id(0), num(1)))))),
        (31, image(1, zero.clone())),
        (32, image(2, over)),
        (33, tower(Layer::Block { plain: 0, cells: 20 }, 13)),
        (34, tower(Layer::Block { plain: 20, cells: 0 }, 26)),
        (35, tower_reaching(510, 400)),
        (36, tower_reaching(100, 511)),
        (35, sequence_reaching(508, 400)),
        (36, sequence_reaching(100, 507)),
        (35, choice_reaching(510, 400)),
        (36, choice_reaching(100, 511)),
        (35, call_with_full_values(508)),
        (36, call_with_full_values(509)),
    ];
    let call = |(number, image): (u32, Vec<u32>)| {
        let count = image[1] as usize;
        let mut case = with_starts(image, &vec![4_000_000_000; count]);
        case.budget = 20_000;
        (number, case)
    };
    let mut all: Vec<_> = images.into_iter().map(call).collect();
    let good = with_starts(image(1, assign(0, num(1))), &[5]);
    all.push((20, Case { registers: vec![5, 6], ..good.clone() }));
    all.push((21, Case { budget: MOST_BUDGET + 1, ..good }));
    all
}

#[test]
fn each_answer_with_each_length() {
    let random = &mut Random::new(1);
    for (number, mut case) in every_answer() {
        for work_length in WORK_LENGTHS {
            case.work_length = work_length;
            let expected = if work_length < WORK_WORDS { 22 } else { number };
            assert_eq!(agreed_run(&case, random).refused(), expected, "work of {work_length}");
        }
    }
}

#[test]
fn every_length_near_enough_words() {
    let random = &mut Random::new(2);
    let mut case = with_starts(image(2, factorial()), &[1, 3]);
    for work_length in WORK_WORDS - 40..WORK_WORDS + 40 {
        case.work_length = work_length;
        let expected = if work_length < WORK_WORDS { 22 } else { 0 };
        assert_eq!(agreed_run(&case, random).refused(), expected, "work of {work_length} words");
    }
}

/// What an earlier call left, or anything else in the work words, changes nothing;
/// neither do words that are all 0 or all 1 bits.
#[test]
fn what_the_work_words_hold_changes_nothing() {
    let random = &mut Random::new(3);
    for fill in [0, 1, u64::MAX, 1 << 63, u64::from(u32::MAX)] {
        let before = vec![fill; WORK_WORDS + 9];
        let mut work = Guarded::holding(&before, random);
        for (number, case) in every_answer().into_iter().filter(|(number, _)| *number != 21) {
            let expected = agreed_run(&case, random);
            for _ in 0..2 {
                let mut registers = as_words(&case.registers);
                let reply = engine::run(&case.image, &mut registers, case.budget, work.slice_mut());
                assert_eq!(reply, reply_of(expected.reply), "{number}, {fill:x}");
                assert_eq!(registers, as_words(&expected.registers), "{number}, {fill:x}");
                let mut after = before.clone();
                after[..WORK_WORDS].fill(0);
                assert_eq!(work.fault("the work slice", &after), None, "{number}, {fill:x}");
            }
        }
    }
}

/// Checks and runs in turn on the same work words, and each run starts from the
/// registers that the one before left.
#[test]
fn one_call_after_another() {
    let random = &mut Random::new(4);
    let count_up = image(1, assign(0, sum(id(0), num(1))));
    let mut work = Guarded::holding(&vec![3; WORK_WORDS], random);
    let mut registers = [0];
    for round in 1..=100 {
        let reply = engine::run(&count_up, &mut registers, MOST_BUDGET, work.slice_mut());
        assert_eq!((reply.refusal, reply.steps, registers[0]), (0, 6, round));
        let (_, case) = random.pick(&every_answer()).clone();
        let mut others = as_words(&case.registers);
        engine::run(&case.image, &mut others, case.budget, work.slice_mut());
        engine::check(&case.image, work.slice_mut());
        assert_eq!(work.fault("the work slice", &vec![0; WORK_WORDS]), None);
    }
}
