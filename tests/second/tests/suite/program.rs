//! The program: whole outputs for whole inputs.

use second::build::*;
use second::encode::{bytes_of, program_input};
use second::program::with_budget;
use second::tree::Root;

fn output(input: &[u8]) -> String {
    String::from_utf8(second::program(input)).unwrap()
}

fn output_of(root: impl Into<Root>, starts: &[i64]) -> String {
    output(&program_input(&image(starts.len() as u32, root), starts))
}

/// The paper's whole output for 5 × (3 + 2), byte by byte.
#[test]
fn the_calculator() {
    let input = bytes_of(&[5, 0, 6, 1, 4, 1, 1, 0, 5, 0, 3, 2]);
    assert_eq!(output(&input), "number 25\nsteps 7\nmost 0 0 3 4\n");
}

#[test]
fn each_outcome() {
    assert_eq!(output_of(sub(num(3), num(5)), &[]), "number -2\nsteps 4\nmost 0 0 2 3\n");
    assert_eq!(output_of(boo(true), &[]), "truth 1\nsteps 1\nmost 0 0 1 1\n");
    assert_eq!(output_of(boo(false), &[]), "truth 0\nsteps 1\nmost 0 0 1 1\n");
    assert_eq!(
        output_of(deref(1), &[4, -4]),
        "cell 1\nsteps 1\nmost 2 2 1 1\nregister 0 4\nregister 1 -4\n"
    );
    assert_eq!(
        output_of(factorial(), &[1, 3]),
        "none\nsteps 71\nmost 2 2 3 6\nregister 0 6\nregister 1 0\n"
    );
    assert_eq!(
        output_of(id(0), &[i64::MIN]),
        "number -9223372036854775808\nsteps 1\nmost 1 1 1 1\nregister 0 -9223372036854775808\n"
    );
    assert_eq!(
        output_of(id(0), &[i64::MAX]),
        "number 9223372036854775807\nsteps 1\nmost 1 1 1 1\nregister 0 9223372036854775807\n"
    );
}

/// 30 to 36 print the registers and the marks until then; 1 to 22 print no register, and
/// marks of 0.
#[test]
fn each_sort_of_refusal() {
    assert_eq!(
        output_of(factorial(), &[1, 21]),
        "refused 32 at 0\nsteps 391\nmost 2 2 3 6\nregister 0 8515157028618240000\nregister 1 3\n"
    );
    assert_eq!(
        output_of(repeat(boo(true), assign(0, num(7))), &[5]),
        "refused 30 at 0\nsteps 1000000\nmost 1 1 2 3\nregister 0 7\n"
    );
    assert_eq!(output_of(div(num(1), num(0)), &[]), "refused 31 at 0\nsteps 3\nmost 0 0 2 3\n");
    let not_assignable = blk(bind_ref(1, deref(0)), assign(1, deref(0)));
    assert_eq!(output_of(not_assignable, &[9]), "refused 13 at 4\nsteps 0\nmost 0 0 0 0\n");
    assert_eq!(
        output(&program_input(&[1, 1, 2, 2], &[9])),
        "refused 4 at 0\nsteps 0\nmost 0 0 0 0\n"
    );
}

/// Under 8 bytes is 1; then n or r; then any other byte count than 8 + 8n + 8r.
#[test]
fn byte_counts() {
    let refused_1 = "refused 1 at 0\nsteps 0\nmost 0 0 0 0\n";
    let refused_2 = "refused 2 at 0\nsteps 0\nmost 0 0 0 0\n";
    for length in 0..8 {
        assert_eq!(output(&vec![255; length]), refused_1);
        assert_eq!(output(&vec![0; length]), refused_1);
    }
    assert_eq!(output(&bytes_of(&[0, 17])), refused_2);
    assert_eq!(output(&[255; 8]), refused_2);
    assert_eq!(output(&[255; 9]), refused_2);
    let whole = program_input(&image(2, sum(id(0), id(1))), &[3, 4]);
    assert_eq!(whole.len(), 8 + 8 * 3 + 8 * 2);
    assert_eq!(output(&whole), "number 7\nsteps 4\nmost 2 2 2 3\nregister 0 3\nregister 1 4\n");
    for length in 8..whole.len() {
        assert_eq!(output(&whole[..length]), refused_1, "{length} bytes");
    }
    for more in [1, 2, 3, 4, 8] {
        let mut longer = whole.clone();
        longer.extend(vec![0; more]);
        assert_eq!(output(&longer), refused_1);
    }
    // n or r before the byte count: 17 registers, 2,001 nodes.
    assert_eq!(output(&bytes_of(&[1, 17, 1, 0])), refused_2);
    assert_eq!(output(&bytes_of(&[2_001, 0])), refused_2);
    // The byte count before the nodes.
    assert_eq!(output(&bytes_of(&[1, 1, 99, 0])), refused_1);
    assert_eq!(
        output(&program_input(&[1, 1, 99, 0], &[5])),
        "refused 3 at 0\nsteps 0\nmost 0 0 0 0\n"
    );
}

#[test]
fn starting_values_are_read_least_byte_first() {
    let mut input = bytes_of(&image(1, id(0)));
    input.extend([0xfe, 0xff, 0xff, 0xff, 0xff, 0xff, 0xff, 0xff]);
    assert_eq!(output(&input), "number -2\nsteps 1\nmost 1 1 1 1\nregister 0 -2\n");
    let mut input = bytes_of(&image(1, id(0)));
    input.extend([1, 2, 0, 0, 0, 0, 0, 0]);
    assert_eq!(output(&input), "number 513\nsteps 1\nmost 1 1 1 1\nregister 0 513\n");
}

/// n 0: 8 bytes and 8 for each starting value, and no other count.
#[test]
fn no_routine() {
    for registers in [0, 1, 2, 15, 16] {
        let starts: Vec<i64> = (0..registers).map(|index| -7 * index).collect();
        let whole = program_input(&image(registers as u32, absent()), &starts);
        assert_eq!(whole.len(), 8 + 8 * registers as usize);
        let lines: String =
            (0..registers).map(|index| format!("register {index} {}\n", -7 * index)).collect();
        let expected = format!("none\nsteps 0\nmost {registers} {registers} 0 0\n{lines}");
        for length in 0..whole.len() + 10 {
            let mut input = whole.clone();
            input.resize(length, 0);
            let fits = length == whole.len();
            let expected = if fits { &expected } else { "refused 1 at 0\nsteps 0\nmost 0 0 0 0\n" };
            assert_eq!(output(&input), expected, "r {registers}, {length} bytes");
        }
        let at = |budget| String::from_utf8(with_budget(&whole, budget)).unwrap();
        for budget in [0, 1, 1_000_000] {
            assert_eq!(at(budget), expected, "budget {budget}");
        }
        assert_eq!(at(1_000_001), "refused 21 at 0\nsteps 0\nmost 0 0 0 0\n");
    }
    for length in 8..8 + 8 * 17 + 10 {
        let mut input = bytes_of(&[0, 17]);
        input.resize(length, 0);
        assert_eq!(output(&input), "refused 2 at 0\nsteps 0\nmost 0 0 0 0\n", "{length} bytes");
    }
}

#[test]
fn another_budget() {
    let at = |budget| {
        let input = program_input(&image(1, assign(0, num(7))), &[5]);
        String::from_utf8(with_budget(&input, budget)).unwrap()
    };
    assert_eq!(at(2), "refused 30 at 0\nsteps 2\nmost 1 1 2 2\nregister 0 5\n");
    assert_eq!(at(3), "none\nsteps 3\nmost 1 1 2 2\nregister 0 7\n");
    assert_eq!(at(1_000_001), "refused 21 at 0\nsteps 0\nmost 0 0 0 0\n");
}
