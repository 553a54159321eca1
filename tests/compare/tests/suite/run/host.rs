//! Faults of the host: which one is told, and that the registers are kept.

use crate::helpers::*;
use compare::sample::TOO_GREAT;
use second::build::*;
use second::engine::{MOST_BUDGET, WORK_WORDS};
use second::generate::random::Random;
use second::generate::Case;

const STARTS: [i64; 2] = [5, i64::MIN];

/// Two registers, and 7 stored in the first.
fn good() -> Vec<u32> {
    image(2, assign(0, num(7)))
}

/// Every choice of faults: 22 comes first, then 21, the image, 20, and last what
/// a step is withheld for.
#[test]
fn a_run_tests_22_then_21_then_the_image_then_20_then_steps() {
    let random = &mut Random::new(1);
    let images = [(0, good()), (1, vec![]), (5, vec![1, 2, 15, 0]), (10, image(2, id(9)))];
    for (fault, image) in images {
        for work_length in [WORK_WORDS - 1, WORK_WORDS] {
            for budget in [MOST_BUDGET + 1, MOST_BUDGET, 0] {
                for count in [1, 2, 3] {
                    let expected = match (work_length, budget, fault, count) {
                        (8_191, ..) => 22,
                        (_, 1_000_001, ..) => 21,
                        (_, _, 1.., _) => fault,
                        (_, _, 0, 1 | 3) => 20,
                        (_, 0, ..) => 30,
                        _ => 0,
                    };
                    let registers = vec![5; count];
                    let case = Case { image: image.clone(), registers, budget, work_length };
                    assert_eq!(agreed_run(&case, random).refused(), expected, "{case:?}");
                }
            }
        }
    }
}

#[test]
fn register_slices_of_every_length() {
    let random = &mut Random::new(2);
    for count in 0..=16 {
        let root = blk(bind(20, num(1)), blk(bind_ref(21, id(20)), assign(21, num(2))));
        let image = image(count, root);
        for length in (0..=18).chain([33, 64, 1_000]) {
            let case = with_starts(image.clone(), &vec![-9; length]);
            let expected = if length == count as usize { 0 } else { 20 };
            assert_eq!(agreed_run(&case, random).refused(), expected);
        }
    }
}

/// Each of 16 registers is read, and set, at its own place.
#[test]
fn each_register_is_its_own() {
    let starts: Vec<i64> = (0..16).map(|index| (index - 8) << 57).collect();
    for register in 0..16 {
        let mut expected = starts.clone();
        expected[register as usize] = 77;
        assert_eq!(agreed_tree_run(assign(register, num(77)), &starts).registers, expected);
        let other = (register + 5) % 16;
        expected[register as usize] = starts[other as usize];
        assert_eq!(agreed_tree_run(assign(register, id(other)), &starts).registers, expected);
    }
}

#[test]
fn budgets_above_1000000_are_21() {
    let random = &mut Random::new(3);
    let wrapped = [(1 << 32) + 3, (1 << 32) + MOST_BUDGET, 1 << 63, (1 << 63) + 3, u64::MAX - 1];
    for budget in TOO_GREAT.into_iter().chain(wrapped) {
        for work_length in [WORK_WORDS, WORK_WORDS + 5] {
            let case = Case { image: good(), registers: STARTS.to_vec(), budget, work_length };
            let ran = agreed_run(&case, random);
            assert_eq!((ran.refused(), ran.reply.steps), (21, 0));
            assert_eq!(ran.registers, STARTS);
        }
    }
    for budget in [3, 4, MOST_BUDGET - 1, MOST_BUDGET] {
        let case = Case { budget, ..with_starts(good(), &STARTS) };
        assert_eq!(agreed_run(&case, random).registers, [7, i64::MIN]);
    }
}

/// An image that is refused at any place leaves the registers.
#[test]
fn registers_are_kept_by_every_refusal_of_the_image() {
    let random = &mut Random::new(4);
    let mut all = papers_images().into_iter().map(|(_, image, _)| image).collect::<Vec<_>>();
    all.push(good());
    for image in all {
        for node in 0..image[0] as usize {
            for (index, word) in [(2 + node, 99), (2 + node, 42), (2 + node, 3)] {
                let mut faulty = image.clone();
                faulty[index] = word;
                let starts = vec![i64::MAX; image[1] as usize];
                let ran = agreed_run(&with_starts(faulty, &starts), random);
                if (1..=22).contains(&ran.refused()) {
                    assert_eq!((ran.registers, ran.reply.steps), (starts, 0));
                }
            }
        }
    }
}
