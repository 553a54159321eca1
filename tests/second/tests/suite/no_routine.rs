//! An image with no node, as a host has it for a slot with no routine: it passes as a
//! command with no rule to apply, and its run has ended before the first step. And
//! images near it.

use crate::helpers::*;
use second::build::{absent, image};
use second::encode::{bytes_of, register_bytes};
use second::engine::{Answer, Reply, MOST_BUDGET, WORK_WORDS};
use second::execution::{Advance, Execution};
use second::reader::read;
use second::show::show;
use second::state::Heights;
use second::tree::{Root, Routine};
use second::{encode, Refusal};

/// Permitted budgets, from the least to the greatest.
const BUDGETS: [u64; 5] = [0, 1, 1_000, MOST_BUDGET - 1, MOST_BUDGET];

/// What the run gives: none, in 0 steps, with the registers the only cells and bindings.
fn gives(registers: u32) -> Reply {
    ended(0, Heights::new(registers as usize, registers as usize, 0, 0))
}

/// So many starting values, none of which is 0.
fn starts(count: usize) -> Vec<i64> {
    [i64::MIN, -1, 1, i64::MAX].into_iter().cycle().take(count).collect()
}

#[test]
fn it_is_two_words() {
    for registers in 0..=16 {
        let words = [0, registers];
        assert_eq!(image(registers, absent()), words);
        let routine = read(&words).expect("it passes");
        assert_eq!(routine, Routine { registers, root: Root::Absent });
        assert_eq!(encode(&routine), words);
        assert!(routine.root.node().is_none() && routine.root.preorder().is_empty());
        assert_eq!(show(&routine), format!("registers {registers}\n   - no routine\n"));
    }
}

#[test]
fn it_passes_as_a_command_with_0_to_16_registers() {
    for registers in 0..=16 {
        assert_eq!(checked(&[0, registers]), Answer::Command, "r {registers}");
    }
}

/// Before the length, whatever stands behind r.
#[test]
fn r_above_16_is_2() {
    for registers in [17, 18, 32, 256, 1 << 16, 1 << 31, u32::MAX] {
        for count in 0..6 {
            for word in [0, 1, 20, u32::MAX] {
                let mut words = vec![0, registers];
                words.extend(vec![word; count]);
                assert_eq!(checked(&words), answer_refused(2, 0), "{words:?}");
                assert_eq!(run_at(&words, &starts(16), 0).0, not_run(2, 0), "{words:?}");
            }
        }
    }
}

/// The words of a node too, or of a tree.
#[test]
fn any_word_behind_r_is_1() {
    for registers in 0..=16 {
        for count in 1..7 {
            for word in [0, 1, 20, u32::MAX] {
                let mut words = vec![0, registers];
                words.extend(vec![word; count]);
                assert_eq!(checked(&words), answer_refused(1, 0), "{words:?}");
                let starts = starts(registers as usize);
                assert_eq!(run_at(&words, &starts, 0), (not_run(1, 0), starts), "{words:?}");
            }
        }
    }
    assert_eq!(checked(&[0, 0, 6, 1, 4, 1, 1, 0, 5, 0, 3, 2]), answer_refused(1, 0));
}

#[test]
fn fewer_than_two_words_are_1() {
    assert_eq!(checked(&[]), answer_refused(1, 0));
    assert_eq!(checked(&[0]), answer_refused(1, 0));
    assert_eq!(run_at(&[0], &[], 0).0, not_run(1, 0));
}

/// With n 1 and no node, or a part of it, the length is wrong and nothing is missing.
#[test]
fn n_1_without_its_node_is_1() {
    for registers in [0, 1, 16] {
        assert_eq!(checked(&[1, registers]), answer_refused(1, 0));
        assert_eq!(checked(&[1, registers, 1]), answer_refused(1, 0));
        assert_eq!(checked(&[1, registers, 1, 0]), Answer::Code(0));
    }
}

#[test]
fn a_run_gives_none_in_0_steps_and_keeps_the_registers() {
    for registers in 0..=16 {
        let starts = starts(registers as usize);
        for budget in BUDGETS {
            let ran = run_at(&[0, registers], &starts, budget);
            assert_eq!(ran, (gives(registers), starts.clone()), "r {registers}, budget {budget}");
        }
    }
}

#[test]
fn a_budget_above_1000000_is_21() {
    for budget in [MOST_BUDGET + 1, 1 << 32, u64::MAX] {
        for registers in [0, 1, 16] {
            let starts = starts(registers as usize);
            let ran = run_at(&[0, registers], &starts, budget);
            assert_eq!(ran, (not_run(21, 0), starts), "r {registers}, budget {budget}");
        }
    }
}

#[test]
fn a_register_slice_of_another_length_is_20() {
    for registers in 0..=16 {
        for length in (0..=18).filter(|length| *length != registers as usize) {
            let starts = starts(length);
            for budget in [0, MOST_BUDGET] {
                let ran = run_at(&[0, registers], &starts, budget);
                assert_eq!(ran, (not_run(20, 0), starts.clone()), "r {registers}, {length}");
            }
        }
    }
}

/// Control is empty in the first state, which is the last: the registers are the only
/// cells and bindings.
#[test]
fn the_run_has_ended_before_its_first_step() {
    let starts = [5, -6];
    let routine = read(&[0, 2]).expect("it passes");
    for budget in BUDGETS {
        let mut execution = Execution::start(&routine, &starts, budget);
        assert!(execution.state().control.is_empty() && execution.state().values.is_empty());
        assert_eq!(execution.advance(), Advance::Ended);
        let mut states = 0;
        assert_eq!(execution.finish(|_| states += 1), None);
        assert_eq!((states, execution.steps()), (1, 0));
        assert_eq!(execution.state().registers(2), starts);
        assert_eq!(execution.state().heights(), Heights::new(2, 2, 0, 0));
    }
}

/// 8 bytes of image and 8 for each register, and no other lengths.
#[test]
fn on_bytes() {
    for registers in 0..=16 {
        let (whole, values) = (bytes_of(&[0, registers]), starts(registers as usize));
        let values = register_bytes(&values);
        for length in 0..=40 {
            let mut image = whole.clone();
            image.resize(length, 1);
            let expected =
                if length == 8 { Answer::Command } else { Answer::Refused(Refusal::whole(1)) };
            assert_eq!(checked_bytes(&image, WORK_WORDS), expected, "{length} bytes");
            let reply = if length == 8 { gives(registers) } else { not_run(1, 0) };
            for budget in [0, MOST_BUDGET] {
                let ran = run_bytes(&image, &values, budget, WORK_WORDS);
                assert_eq!(ran, (reply, values.clone()), "{length} bytes, budget {budget}");
            }
        }
        for length in (0..=8 * 17 + 1).filter(|length| *length != values.len()) {
            let other = vec![3; length];
            let ran = run_bytes(&whole, &other, 0, WORK_WORDS);
            assert_eq!(ran, (not_run(20, 0), other), "{length} register bytes");
        }
    }
    // Each byte of n and r counts.
    for byte in 0..8 {
        let mut image = [0; 8];
        image[byte] = 17;
        let expected = if byte == 0 { 1 } else { 2 };
        assert_eq!(checked_bytes(&image, WORK_WORDS), answer_refused(expected, 0), "byte {byte}");
    }
}

/// 22, then 21, then the image, then 20: the first fault decides.
#[test]
fn on_bytes_in_the_order_of_the_paper() {
    let (many, few) = (MOST_BUDGET + 1, WORK_WORDS - 1);
    let good = bytes_of(&[0, 1]);
    let reply = |image: &[u8], starts: &[u8], budget, work_length| {
        let (reply, registers) = run_bytes(image, starts, budget, work_length);
        assert_eq!(registers, starts);
        reply
    };
    for image in [&good[..], &good[..7], &[0; 9], &bytes_of(&[0, 17])] {
        assert_eq!(checked_bytes(image, few), answer_refused(22, 0));
        assert_eq!(reply(image, &[1; 7], many, few), not_run(22, 0));
        assert_eq!(reply(image, &[1; 7], many, WORK_WORDS), not_run(21, 0));
    }
    assert_eq!(reply(&[0; 9], &[1; 7], 0, WORK_WORDS), not_run(1, 0));
    assert_eq!(reply(&bytes_of(&[0, 17]), &[1; 7], 0, WORK_WORDS), not_run(2, 0));
    assert_eq!(reply(&good, &[1; 7], 0, WORK_WORDS), not_run(20, 0));
    assert_eq!(reply(&good, &[1; 8], 0, WORK_WORDS), gives(1));
}
