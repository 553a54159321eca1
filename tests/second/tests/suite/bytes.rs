//! The calls on bytes: every length, the order of refusals, register bytes.

use crate::helpers::*;
use second::build::*;
use second::encode;
use second::encode::bytes_of;
use second::engine::{Answer, Outcome, Reply, MOST_BUDGET, WORK_WORDS};
use second::generate::limits::with_nodes;
use second::state::Heights;

/// n 1, r 0; Num; 16,909,060.
const NUMBER: [u8; 16] = [1, 0, 0, 0, 0, 0, 0, 0, 1, 0, 0, 0, 4, 3, 2, 1];
/// n 1, r 1; Id; name 0.
const REGISTER: [u8; 16] = [1, 0, 0, 0, 1, 0, 0, 0, 3, 0, 0, 0, 0, 0, 0, 0];
/// The bytes of 2,000 nodes.
const LARGEST: usize = 16_008;

/// The refusal of an image by both calls, which keep the register bytes.
fn refused_bytes(image: &[u8]) -> (u32, u32) {
    let starts = [7; 8];
    let (reply, registers) = run_bytes(image, &starts, MOST_BUDGET, WORK_WORDS);
    let refusal = reply.refusal().expect("a refusal");
    assert_eq!((reply, registers), (not_run(refusal.number, refusal.place), starts.to_vec()));
    assert_eq!(checked_bytes(image, WORK_WORDS), Answer::Refused(refusal));
    (refusal.number, refusal.place)
}

/// The reply to an image and register bytes with budget and work words enough.
fn reply(image: &[u8], starts: &[u8]) -> (Reply, Vec<u8>) {
    run_bytes(image, starts, MOST_BUDGET, WORK_WORDS)
}

#[test]
fn words_stand_least_byte_first() {
    let marks = Heights::new(0, 0, 1, 1);
    let number = Reply { outcome: Outcome::Number(0x0102_0304), steps: 1, marks };
    assert_eq!(reply(&NUMBER, &[]), (number, vec![]));
    assert_eq!(checked_bytes(&NUMBER, WORK_WORDS), Answer::Code(0));
    for byte in 8..12 {
        let mut image = NUMBER;
        image[byte] = 99;
        assert_eq!(refused_bytes(&image), (3, 0), "byte {byte}");
    }
}

#[test]
fn fewer_than_8_bytes_are_1() {
    for length in 0..8 {
        for byte in [0, 1, 17, 255] {
            assert_eq!(refused_bytes(&vec![byte; length]), (1, 0), "{length} bytes");
        }
        assert_eq!(refused_bytes(&NUMBER[..length]), (1, 0), "{length} bytes");
    }
}

/// Each byte of n and r counts, whatever the length is.
#[test]
fn n_and_r_come_before_the_length() {
    let wrong = [
        [0, 0, 0, 0, 17, 0, 0, 0],
        [1, 1, 1, 0, 0, 0, 0, 0],
        [1, 0, 1, 0, 0, 0, 0, 0],
        [1, 0, 0, 1, 0, 0, 0, 0],
        [0xd1, 7, 0, 0, 0, 0, 0, 0], // 2,001
        [1, 0, 0, 0, 17, 0, 0, 0],
        [1, 0, 0, 0, 0, 1, 0, 0],
        [1, 0, 0, 0, 0, 0, 1, 0],
        [1, 0, 0, 0, 0, 0, 0, 1],
        [255; 8],
    ];
    for counts in wrong {
        for length in (8..40).chain([LARGEST, LARGEST + 8, 100_000]) {
            let mut image = counts.to_vec();
            image.resize(length, 1);
            assert_eq!(refused_bytes(&image), (2, 0), "{counts:?}, {length} bytes");
        }
    }
}

/// And before the nodes, one of which has no kind.
#[test]
fn a_length_other_than_8_and_8n_is_1() {
    for nodes in [1, 2, 5] {
        for length in 8..80 {
            let mut image = bytes_of(&[nodes, 16, 99]);
            image.resize(length, 99);
            let expected = if length == 8 + 8 * nodes as usize { (3, 0) } else { (1, 0) };
            assert_eq!(refused_bytes(&image), expected, "{nodes} nodes, {length} bytes");
        }
    }
}

#[test]
fn images_up_to_the_largest_and_longer() {
    for nodes in [1_999, 2_000] {
        let image = bytes_of(&encode(&with_nodes(nodes)));
        assert_eq!(image.len(), 8 + 8 * nodes);
        assert_eq!(checked_bytes(&image, WORK_WORDS), Answer::Command);
        assert_eq!(reply(&image, &[0; 8]).0.outcome, Outcome::None);
        for more in [1, 2, 3, 4, 5, 7, 8, 16, 1_000, 100_000] {
            let longer = [&image[..], &vec![0; more]].concat();
            assert_eq!(refused_bytes(&longer), (1, 0), "{nodes} nodes, {more} bytes more");
        }
        for less in [1, 2, 3, 4, 8, 16, 8_000] {
            let shorter = &image[..image.len() - less];
            assert_eq!(refused_bytes(shorter), (1, 0), "{nodes} nodes, {less} bytes less");
        }
    }
    let too_large = bytes_of(&encode(&with_nodes(2_001)));
    assert_eq!((too_large.len(), refused_bytes(&too_large)), (LARGEST + 8, (2, 0)));
}

/// A wrong shape and a wrong type, with their places.
#[test]
fn the_nodes_are_judged_as_on_words() {
    assert_eq!(refused_bytes(&bytes_of(&[1, 1, 15, 0])), (5, 1));
    assert_eq!(refused_bytes(&bytes_of(&[1, 1, 3, 64])), (4, 0));
    assert_eq!(refused_bytes(&bytes_of(&image(1, assign(0, id(7))))), (10, 1));
    assert_eq!(refused_bytes(&bytes_of(&image(1, sum(num(1), boo(true))))), (11, 0));
}

#[test]
fn registers_are_read_least_byte_first() {
    for (index, number) in [(0, 200), (1, 51_200), (6, 200 << 48), (7, -56 << 56)] {
        let mut starts = [0; 8];
        starts[index] = 200;
        let marks = Heights::new(1, 1, 1, 1);
        let expected = Reply { outcome: Outcome::Number(number), steps: 1, marks };
        assert_eq!(reply(&REGISTER, &starts), (expected, starts.to_vec()));
    }
}

#[test]
fn registers_are_written_least_byte_first() {
    let minus_one = bytes_of(&image(2, assign(1, sub(id(0), num(1)))));
    let starts = [0, 0, 0, 0, 0, 0, 0, 0, 9, 9, 9, 9, 9, 9, 9, 9];
    let (_, registers) = reply(&minus_one, &starts);
    assert_eq!(registers, [[0; 8], [255; 8]].concat());
    let starts = [0, 0, 1, 0, 0, 0, 0, 128, 9, 9, 9, 9, 9, 9, 9, 9];
    let (_, registers) = reply(&minus_one, &starts);
    assert_eq!(registers, [0, 0, 1, 0, 0, 0, 0, 128, 255, 255, 0, 0, 0, 0, 0, 128]);
}

/// 30 to 36 leave the register bytes as before the withheld step.
#[test]
fn a_withheld_step_leaves_its_registers() {
    let set = bytes_of(&image(1, assign(0, num(7))));
    let expected = (ended(3, Heights::new(1, 1, 2, 2)), vec![7, 0, 0, 0, 0, 0, 0, 0]);
    assert_eq!(run_bytes(&set, &[5; 8], 3, WORK_WORDS), expected);
    let marks = [Heights::new(1, 1, 0, 1), Heights::new(1, 1, 1, 2), Heights::new(1, 1, 2, 2)];
    for (budget, marks) in (0..3).zip(marks) {
        let expected = (withheld(30, budget, marks), vec![5; 8]);
        assert_eq!(run_bytes(&set, &[5; 8], budget, WORK_WORDS), expected);
    }
    let set_then_divide = cseq(assign(0, num(7)), assign(0, div(num(1), num(0))));
    let image = bytes_of(&image(1, set_then_divide));
    let expected = withheld(31, 8, Heights::new(1, 1, 3, 4));
    assert_eq!(reply(&image, &[5; 8]), (expected, vec![7, 0, 0, 0, 0, 0, 0, 0]));
}

#[test]
fn register_bytes_other_than_8r_are_20() {
    for count in [0, 1, 2, 15, 16] {
        let image = bytes_of(&image(count, num(1)));
        for length in (0..=8 * 18).chain([1_000, 100_000]) {
            let starts = vec![3; length];
            let (reply, registers) = reply(&image, &starts);
            let fits = length == 8 * count as usize;
            let expected = if fits { Outcome::Number(1) } else { refused(20, 0) };
            assert_eq!(reply.outcome, expected, "r {count}, {length} bytes");
            assert_eq!(registers, starts);
        }
    }
}

/// 22, then 21, then the image, then 20, then steps: the first fault decides.
#[test]
fn a_run_tests_in_the_order_of_the_paper() {
    let ill_typed = bytes_of(&image(1, assign(0, id(7))));
    let good = bytes_of(&image(1, assign(0, num(7))));
    let (many, few) = (MOST_BUDGET + 1, WORK_WORDS - 1);
    let outcome = |image: &[u8], starts: &[u8], budget, work_length| {
        let (reply, registers) = run_bytes(image, starts, budget, work_length);
        assert_eq!((reply.steps, &registers[..]), (0, starts));
        reply.outcome
    };
    for image in [&[][..], &NUMBER[..7], &NUMBER[..15], &ill_typed, &good] {
        assert_eq!(outcome(image, &[1; 7], many, few), refused(22, 0));
        assert_eq!(outcome(image, &[1; 7], many, WORK_WORDS), refused(21, 0));
    }
    assert_eq!(outcome(&[], &[1; 7], 0, WORK_WORDS), refused(1, 0));
    assert_eq!(outcome(&ill_typed, &[1; 7], 0, WORK_WORDS), refused(10, 1));
    assert_eq!(outcome(&ill_typed[..23], &[1; 7], 0, WORK_WORDS), refused(1, 0));
    assert_eq!(outcome(&good, &[1; 7], 0, WORK_WORDS), refused(20, 0));
    assert_eq!(outcome(&good, &[1; 8], 0, WORK_WORDS), refused(30, 0));
}

#[test]
fn the_checker_tests_22_then_the_image() {
    for image in [&[][..], &NUMBER[..15], &NUMBER] {
        for work_length in [0, 1, WORK_WORDS - 1] {
            assert_eq!(checked_bytes(image, work_length), answer_refused(22, 0));
        }
    }
    for work_length in [WORK_WORDS, WORK_WORDS + 1, 2 * WORK_WORDS] {
        assert_eq!(checked_bytes(&[], work_length), answer_refused(1, 0));
        assert_eq!(checked_bytes(&NUMBER[..15], work_length), answer_refused(1, 0));
        assert_eq!(checked_bytes(&NUMBER, work_length), Answer::Code(0));
    }
}

#[test]
fn budgets_up_to_1000000_and_above() {
    for budget in [1, 2, MOST_BUDGET - 1, MOST_BUDGET] {
        let (reply, _) = run_bytes(&NUMBER, &[], budget, WORK_WORDS);
        assert_eq!(reply.steps, 1, "budget {budget}");
    }
    for budget in [MOST_BUDGET + 1, 1 << 32, (1 << 32) + 1, 1 << 63, u64::MAX] {
        let (reply, _) = run_bytes(&NUMBER, &[], budget, WORK_WORDS);
        assert_eq!(reply, not_run(21, 0), "budget {budget}");
    }
}
