//! Faults of the host: which one is told, work slices near 8,192 words and budgets
//! near 1,000,000.

use crate::helpers::*;
use compare::byte_calls::ByteCall;
use compare::engine;
use second::build::*;
use second::encode::{bytes_of, register_bytes};
use second::engine::{MOST_BUDGET, WORK_WORDS};
use second::generate::random::Random;

/// Two registers, and 7 stored in the first.
fn good() -> ByteCall {
    ByteCall::of(&with_starts(image(2, assign(0, num(7))), &[5, i64::MIN]))
}

/// Every choice of faults: 22 comes first, then 21, the image, 20, and last what a
/// step is withheld for.
#[test]
fn a_run_tests_22_then_21_then_the_image_then_20_then_steps() {
    let random = &mut Random::new(1);
    let whole = good().image;
    let images = [
        (0, whole.clone()),
        (1, vec![]),
        (1, whole[..7].to_vec()),
        (1, whole[..whole.len() - 1].to_vec()),
        (1, [&whole[..], &[0; 3]].concat()),
        (2, bytes_of(&[2_001, 2])),
        (2, bytes_of(&[1, 17, 1])),
        (5, bytes_of(&[1, 2, 15, 0])),
        (10, bytes_of(&image(2, id(9)))),
    ];
    for (fault, image) in images {
        for work_length in [0, WORK_WORDS - 1, WORK_WORDS, WORK_WORDS + 1] {
            for budget in [u64::MAX, MOST_BUDGET + 1, MOST_BUDGET, 0] {
                for length in [0, 8, 15, 16, 17, 24, 136] {
                    let checked = if work_length < WORK_WORDS { 22 } else { fault };
                    let ran = match (budget, length) {
                        _ if checked == 22 => 22,
                        (1_000_001.., _) => 21,
                        _ if fault != 0 => fault,
                        (0, 16) => 30,
                        (_, 16) => 0,
                        _ => 20,
                    };
                    let registers = vec![5; length];
                    let call = ByteCall { image: image.clone(), registers, budget, work_length };
                    assert_eq!(refused_on_bytes(&call, random), (checked, ran), "{call:?}");
                }
            }
        }
    }
}

#[test]
fn every_length_near_enough_work_words() {
    let random = &mut Random::new(2);
    for work_length in (WORK_WORDS - 20..WORK_WORDS + 20).chain([0, 1, 2, 3 * WORK_WORDS]) {
        let expected = if work_length < WORK_WORDS { (22, 22) } else { (0, 0) };
        let call = ByteCall { work_length, ..good() };
        assert_eq!(refused_on_bytes(&call, random), expected, "work of {work_length} words");
    }
}

#[test]
fn every_budget_near_the_limit() {
    let random = &mut Random::new(3);
    let left = register_bytes(&[7, i64::MIN]);
    let great = [1 << 32, (1 << 32) + 3, (1 << 32) + MOST_BUDGET, 1 << 63, u64::MAX];
    for budget in (MOST_BUDGET - 20..MOST_BUDGET + 20).chain(great) {
        let ran = agreed_run_bytes(&ByteCall { budget, ..good() }, random);
        match budget > MOST_BUDGET {
            true => assert_eq!((ran.refused(), ran.registers), (21, good().registers)),
            false => assert_eq!((ran.refused(), &ran.registers), (0, &left)),
        }
    }
    // All of the greatest budget is spent.
    let endless = image(1, repeat(boo(true), assign(0, sum(id(0), num(1)))));
    for budget in [MOST_BUDGET - 1, MOST_BUDGET] {
        let call = ByteCall { budget, ..ByteCall::of(&with_starts(endless.clone(), &[0])) };
        let ran = agreed_run_bytes(&call, random);
        assert_eq!((ran.refused(), ran.reply.steps), (30, budget));
    }
}

/// What an earlier call left in the work words, or anything else, changes nothing.
#[test]
fn one_call_after_another_on_the_same_work_words() {
    let random = &mut Random::new(4);
    let count_up = bytes_of(&image(1, assign(0, sum(id(0), num(1)))));
    let mut work = vec![u64::MAX; WORK_WORDS];
    let mut registers = [0; 8];
    for round in 1..=300_u64 {
        let reply = engine::run_bytes(&count_up, &mut registers, MOST_BUDGET, &mut work);
        assert_eq!((reply.refusal, reply.steps), (0, 6));
        assert_eq!(registers, round.to_le_bytes());
        let (_, other, _) = random.pick(&papers_images()).clone();
        let mut values = vec![3; 8 * other[1] as usize];
        engine::check_bytes(&bytes_of(&other), &mut work);
        assert!(work.iter().all(|word| *word == 0));
        engine::run_bytes(&bytes_of(&other), &mut values, 50, &mut work);
        assert!(work.iter().all(|word| *word == 0));
        work.fill(random.word());
    }
}
