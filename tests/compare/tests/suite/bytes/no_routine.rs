//! Images with no node in bytes, as of a slot with no routine, and images near them:
//! every length up to 40 bytes, every r up to 17, every length of the register bytes.

use crate::helpers::*;
use compare::byte_calls::ByteCall;
use compare::engine::{self, CheckReply, RunReply};
use second::encode::bytes_of;
use second::engine::{Answer, Outcome, MOST_BUDGET, WORK_WORDS};
use second::generate::random::Random;

/// n 0 and r in so many bytes, with this one behind them as often as it takes.
fn image_of(registers: u32, length: usize, behind: u8) -> Vec<u8> {
    let mut image = bytes_of(&[0, registers]);
    image.resize(length, behind);
    image
}

/// What the image alone is refused with, or 0.
fn refused_image(registers: u32, length: usize) -> u32 {
    match (length, registers) {
        (0..=7, _) => 1,
        (_, 17..) => 2,
        (8, _) => 0,
        _ => 1,
    }
}

#[test]
fn of_every_length_and_every_r() {
    let random = &mut Random::new(1);
    for registers in (0..=17).chain([256, 1 << 24, u32::MAX]) {
        for length in 0..=40 {
            for behind in [0, 1, 255] {
                let image = image_of(registers, length, behind);
                let starts = vec![0x81; 8 * registers.min(17) as usize];
                let (budget, work_length) = (0, WORK_WORDS);
                let call = ByteCall { image, registers: starts, budget, work_length };
                let expected = refused_image(registers, length);
                assert_eq!(refused_on_bytes(&call, random), (expected, expected), "{call:?}");
                if expected == 0 {
                    assert_eq!(agreed_check_bytes(&call, random), Answer::Command);
                    let ran = agreed_run_bytes(&call, random);
                    assert_eq!((ran.reply.outcome, ran.reply.steps), (Outcome::None, 0));
                    assert_eq!(ran.registers, call.registers);
                }
            }
        }
    }
}

#[test]
fn of_every_length_of_the_register_bytes() {
    let random = &mut Random::new(2);
    for registers in 0..=16 {
        for length in (0..=8 * 17 + 1).chain([1 << 16]) {
            for budget in [0, MOST_BUDGET] {
                let image = bytes_of(&[0, registers]);
                let starts = vec![0x81; length];
                let call = ByteCall { image, registers: starts, budget, work_length: WORK_WORDS };
                let ran = agreed_run_bytes(&call, random);
                let expected = if length == 8 * registers as usize { 0 } else { 20 };
                assert_eq!(ran.refused(), expected, "r {registers}, {length} bytes");
                assert_eq!((ran.reply.steps, ran.registers), (0, call.registers));
            }
        }
    }
}

/// 22 comes first, then 21, the image and 20; and then there is no step to withhold.
#[test]
fn with_every_fault_of_the_host() {
    let random = &mut Random::new(3);
    for registers in [0, 1, 2, 15, 16, 17] {
        for length in [0, 7, 8, 9, 12, 16] {
            for budget in [0, 1, 1_000_000, 1_000_001] {
                for work_length in [8_191, 8_192, 8_200] {
                    for more in [0, 1, 8] {
                        let by_image = refused_image(registers, length);
                        let checked = if work_length == 8_191 { 22 } else { by_image };
                        let ran = match (work_length, budget, by_image, more) {
                            (8_191, ..) => 22,
                            (_, 1_000_001, ..) => 21,
                            (_, _, 1.., _) => by_image,
                            (.., 1..) => 20,
                            _ => 0,
                        };
                        let image = image_of(registers, length, 1);
                        let registers = vec![7; 8 * registers as usize + more];
                        let call = ByteCall { image, registers, budget, work_length };
                        assert_eq!(refused_on_bytes(&call, random), (checked, ran), "{call:?}");
                    }
                }
            }
        }
    }
}

/// In the engine's numbers, which are asked of nobody: marked work words become 0, the
/// first 8,192 of them, and the register bytes stay.
#[test]
fn none_in_0_steps_in_the_engines_numbers() {
    let marked: Vec<u64> = (1..=8_200).collect();
    let settled = |work: &[u64]| {
        assert!(work[..WORK_WORDS].iter().all(|word| *word == 0));
        assert_eq!(work[WORK_WORDS..], marked[WORK_WORDS..]);
    };
    for registers in 0..=16 {
        let image = bytes_of(&[0, registers]);
        let mut work = marked.clone();
        let reply = engine::check_bytes(&image, &mut work);
        assert_eq!(reply, CheckReply { refusal: 0, value: 8, place: 0 }, "r {registers}");
        settled(&work);
        for budget in [0, 1, MOST_BUDGET] {
            let before: Vec<u8> = (1..=8 * registers as u8).collect();
            let (mut after, mut work) = (before.clone(), marked.clone());
            let reply = engine::run_bytes(&image, &mut after, budget, &mut work);
            // The only state has the registers' cells and bindings.
            let (cells, bindings) = (registers.into(), registers.into());
            let ended = RunReply { cells, bindings, ..RunReply::default() };
            assert_eq!((reply, after), (ended, before), "r {registers}, budget {budget}");
            settled(&work);
        }
    }
}
