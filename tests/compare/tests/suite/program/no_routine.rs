//! The program on images with no node, as of a slot with no routine, and on images near
//! them: every count of bytes, up to more than 16 registers take.

use crate::helpers::*;
use compare::inputs::LONGEST_THAT_FITS;
use second::encode::{bytes_of, program_input};

const LENGTH: &str = "refused 1 at 0\nsteps 0\nmost 0 0 0 0\n";
const COUNTS: &str = "refused 2 at 0\nsteps 0\nmost 0 0 0 0\n";

/// What it prints for so many registers that start at 0x0101010101010101.
fn none_with(registers: usize) -> String {
    let lines = (0..registers).map(|index| format!("register {index} 72340172838076673\n"));
    let lines = lines.collect::<String>();
    format!("none\nsteps 0\nmost {registers} {registers} 0 0\n{lines}")
}

#[test]
fn of_every_count_of_bytes() {
    for registers in [0, 1, 16, 17] {
        for length in 0..=8 + 8 * 16 + 9 {
            let mut input = bytes_of(&[0, registers]);
            input.resize(length, 1);
            let expected = match (length, registers) {
                (0..=7, _) => LENGTH.to_string(),
                (_, 17..) => COUNTS.to_string(),
                _ if length == 8 + 8 * registers as usize => none_with(registers as usize),
                _ => LENGTH.to_string(),
            };
            assert_eq!(agreed_output(&input), expected, "r {registers}, {length} bytes");
        }
    }
}

/// Each count of registers, with values that stay as they are.
#[test]
fn with_every_count_of_registers() {
    for registers in 0..=16 {
        let starts: Vec<i64> =
            [i64::MIN, -1, 0, i64::MAX].into_iter().cycle().take(registers).collect();
        let lines: String = starts
            .iter()
            .enumerate()
            .map(|(index, value)| format!("register {index} {value}\n"))
            .collect();
        let input = program_input(&[0, registers as u32], &starts);
        let expected = format!("none\nsteps 0\nmost {registers} {registers} 0 0\n{lines}");
        assert_eq!(agreed_output(&input), expected);
    }
}

/// The words behind r are the starting values, also where they could be nodes.
#[test]
fn words_behind_r_are_starting_values() {
    let num_7 = bytes_of(&[0, 1, 1, 7]);
    let one = "none\nsteps 0\nmost 1 1 0 0\nregister 0 30064771073\n";
    assert_eq!(agreed_output(&num_7), one);
    assert_eq!(agreed_output(&bytes_of(&[0, 0, 1, 7])), LENGTH);
    let calculator = [&[0, 5], &CALCULATOR[2..]].concat();
    let output = agreed_output(&bytes_of(&calculator));
    assert!(output.starts_with("none\nsteps 0\nmost 5 5 0 0\nregister 0 4294967302\n"), "{output}");
    assert_eq!(output.lines().count(), 8);
}

/// Longer than any input that fits, which the program does not read to its end.
#[test]
fn of_many_bytes() {
    for registers in [0, 16, 17] {
        for length in [LONGEST_THAT_FITS - 1, LONGEST_THAT_FITS, LONGEST_THAT_FITS + 1, 200_000] {
            let mut input = bytes_of(&[0, registers]);
            input.resize(length, 0);
            let expected = if registers == 17 { COUNTS } else { LENGTH };
            assert_eq!(agreed_output(&input), expected, "r {registers}, {length} bytes");
        }
    }
}
