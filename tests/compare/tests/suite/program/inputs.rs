//! Byte counts: inputs that are empty, short, cut, too long by a few bytes or by
//! many; and what n and r say of them.

use crate::helpers::*;
use compare::inputs::{random_bytes, LONGEST_THAT_FITS};
use second::build::*;
use second::encode::{bytes_of, program_input};
use second::generate::random::Random;

const LENGTH: &str = "refused 1 at 0\nsteps 0\nmost 0 0 0 0\n";
const COUNTS: &str = "refused 2 at 0\nsteps 0\nmost 0 0 0 0\n";

fn factorial_of_3() -> Vec<u8> {
    program_input(&image(2, factorial()), &[1, 3])
}

/// 2,000 nodes and 16 registers: the longest input that fits.
fn longest() -> Vec<u8> {
    let root = in_turn(vec![assign(0, num(1)); 667]);
    program_input(&image(16, root), &[-1; 16])
}

#[test]
fn the_empty_input() {
    assert_eq!(agreed_output(&[]), LENGTH);
}

#[test]
fn one_to_sixteen_bytes() {
    let random = &mut Random::new(1);
    let calculator = bytes_of(&CALCULATOR);
    let leaf = bytes_of(&image(0, num(7)));
    let with_register = bytes_of(&[1, 1, 1, 7]);
    for length in 1..=16 {
        let mut inputs = vec![vec![0; length], vec![255; length], vec![1; length]];
        inputs.extend([&calculator, &leaf, &with_register].map(|whole| whole[..length].to_vec()));
        inputs.extend((0..4).map(|_| random_bytes(length, random)));
        for input in inputs {
            let output = agreed_output(&input);
            // The leaf alone, and n and r both 0, are whole.
            let (is_leaf, is_empty) = (input == leaf, input == [0; 8]);
            let whole = is_leaf || is_empty;
            assert_eq!(output == LENGTH || output == COUNTS, !whole, "{input:?}: {output}");
            assert_eq!(
                is_leaf,
                output == "number 7\nsteps 1\nmost 0 0 1 1\n",
                "{input:?}: {output}"
            );
            assert_eq!(is_empty, output == "none\nsteps 0\nmost 0 0 0 0\n", "{input:?}: {output}");
            assert!(length >= 8 || output == LENGTH, "{input:?}: {output}");
        }
    }
}

#[test]
fn every_cut_is_1() {
    let whole = factorial_of_3();
    for length in 0..whole.len() {
        assert_eq!(agreed_output(&whole[..length]), LENGTH, "{length} bytes");
    }
    let output = "none\nsteps 71\nmost 2 2 3 6\nregister 0 6\nregister 1 0\n";
    assert_eq!(agreed_output(&whole), output);
}

#[test]
fn every_byte_more_is_1() {
    let inputs =
        [bytes_of(&CALCULATOR), factorial_of_3(), program_input(&image(16, id(15)), &[7; 16])];
    for whole in inputs {
        for more in 1..=17 {
            for byte in [0, 1, 255] {
                let input = [&whole[..], &vec![byte; more]].concat();
                assert_eq!(agreed_output(&input), LENGTH, "{more} bytes more");
            }
        }
    }
}

/// The counts come before the length, the length before the nodes.
#[test]
fn counts_near_their_limits() {
    let nodes = [0, 1, 2, 1_999, 2_000, 2_001, 1 << 16, (1 << 29) + 1, 1 << 31, u32::MAX];
    let registers = [0, 1, 15, 16, 17, 256, 1 << 29, u32::MAX];
    for nodes in nodes {
        for registers in registers {
            let counts = bytes_of(&[nodes, registers]);
            let fits = nodes <= 2_000 && registers <= 16;
            let output = match (fits, nodes, registers) {
                (true, 0, 0) => "none\nsteps 0\nmost 0 0 0 0\n",
                (true, ..) => LENGTH,
                (false, ..) => COUNTS,
            };
            assert_eq!(agreed_output(&counts), output, "n {nodes}, r {registers}");
            if fits {
                // Kind 0 at every node, if there is one, and then one byte less.
                let mut input = counts;
                input.resize(8 + 8 * nodes as usize + 8 * registers as usize, 0);
                let lines = (0..registers).map(|index| format!("register {index} 0\n"));
                let output = match nodes {
                    0 => {
                        let lines = lines.collect::<String>();
                        format!("none\nsteps 0\nmost {registers} {registers} 0 0\n{lines}")
                    }
                    _ => "refused 3 at 0\nsteps 0\nmost 0 0 0 0\n".to_string(),
                };
                assert_eq!(agreed_output(&input), output);
                input.pop();
                assert_eq!(agreed_output(&input), LENGTH);
            }
        }
    }
}

/// The greatest count of bytes that can be whole, and all that the program cuts.
#[test]
fn inputs_longer_than_any_that_fit() {
    let whole = longest();
    assert_eq!(whole.len(), LONGEST_THAT_FITS);
    let registers: String = (1..16).map(|index| format!("register {index} -1\n")).collect();
    let output = format!("none\nsteps 2667\nmost 16 16 2 11\nregister 0 1\n{registers}");
    assert_eq!(agreed_output(&whole), output);
    let random = &mut Random::new(2);
    for more in [1, 2, 3, 8, 100, 49_399, 49_400, 49_401, 200_000] {
        let rest = random_bytes(more, random);
        for short in [&whole, &bytes_of(&CALCULATOR), &factorial_of_3()] {
            let mut input = [&short[..], &rest].concat();
            input.resize(LONGEST_THAT_FITS + more, 0);
            assert_eq!(agreed_output(&input), LENGTH, "{} bytes", input.len());
            // Too many registers.
            input[4] = 17;
            assert_eq!(agreed_output(&input), COUNTS, "{} bytes", input.len());
        }
    }
}

#[test]
fn starting_values_are_read_least_byte_first() {
    let image = bytes_of(&image(1, id(0)));
    for index in 0..8 {
        let mut value = [0; 8];
        value[index] = 200;
        let number = 200_u64 << (8 * index);
        let number = number as i64;
        let input = [&image[..], &value].concat();
        let output = format!("number {number}\nsteps 1\nmost 1 1 1 1\nregister 0 {number}\n");
        assert_eq!(agreed_output(&input), output);
    }
}

#[test]
fn random_inputs() {
    let random = &mut Random::new(3);
    for _ in 0..200 {
        let count = random.below(100);
        let mut input = random_bytes(count, random);
        // Counts that are small, as often as not.
        if random.chance(1, 2) {
            for (index, byte) in input.iter_mut().take(8).enumerate() {
                *byte = if index % 4 == 0 { *byte % 8 } else { 0 };
            }
        }
        agreed_output(&input);
    }
}
