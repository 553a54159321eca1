//! What the paper says of the program, as whole outputs. Its budget is 1,000,000,
//! so the cases B and C, which are A at other budgets, have no place here.

use crate::helpers::*;
use second::build::*;
use second::encode;
use second::encode::program_input;
use second::generate::tower::{Layer, Tower};
use second::tree::Root;

fn output_of(root: impl Into<Root>, starts: &[i64]) -> String {
    agreed_output(&program_input(&image(starts.len() as u32, root), starts))
}

#[test]
fn cases_a_to_l() {
    let table: [(&str, &[i64], &str); 13] = [
        ("A", &[], "number 25\nsteps 7\nmost 0 0 3 4\n"),
        ("D", &[], "number -2\nsteps 4\nmost 0 0 2 3\n"),
        ("E", &[], "refused 31 at 0\nsteps 3\nmost 0 0 2 3\n"),
        ("F", &[-7], "number -4\nsteps 4\nmost 1 1 2 3\nregister 0 -7\n"),
        ("G", &[1, 3], "none\nsteps 71\nmost 2 2 3 6\nregister 0 6\nregister 1 0\n"),
        (
            "G",
            &[1, 20],
            "none\nsteps 428\nmost 2 2 3 6\nregister 0 2432902008176640000\nregister 1 0\n",
        ),
        (
            "G",
            &[1, 21],
            "refused 32 at 0\nsteps 391\nmost 2 2 3 6\n\
             register 0 8515157028618240000\nregister 1 3\n",
        ),
        ("H", &[5], "none\nsteps 14\nmost 2 2 5 6\nregister 0 10\n"),
        ("I", &[0], "none\nsteps 21\nmost 2 4 8 8\nregister 0 7\n"),
        ("I", &[i64::MIN], "none\nsteps 21\nmost 2 4 8 8\nregister 0 7\n"),
        ("J", &[9], "none\nsteps 14\nmost 2 2 5 6\nregister 0 10\n"),
        ("K", &[9], "refused 13 at 4\nsteps 0\nmost 0 0 0 0\n"),
        ("L", &[], "none\nsteps 19\nmost 2 2 5 9\n"),
    ];
    for (case, starts, output) in table {
        let input = program_input(&papers_image(case), starts);
        assert_eq!(agreed_output(&input), output, "case {case}, starting values {starts:?}");
    }
}

#[test]
fn each_sort_of_outcome() {
    assert_eq!(output_of(num(0), &[]), "number 0\nsteps 1\nmost 0 0 1 1\n");
    let greatest = "number 4294967295\nsteps 1\nmost 0 0 1 1\n";
    assert_eq!(output_of(num(u32::MAX), &[]), greatest);
    assert_eq!(output_of(boo(false), &[]), "truth 0\nsteps 1\nmost 0 0 1 1\n");
    assert_eq!(output_of(boo(true), &[]), "truth 1\nsteps 1\nmost 0 0 1 1\n");
    let cell = "cell 1\nsteps 1\nmost 2 2 1 1\nregister 0 4\nregister 1 -4\n";
    assert_eq!(output_of(deref(1), &[4, -4]), cell);
    assert_eq!(output_of(assign(0, num(1)), &[7]), "none\nsteps 3\nmost 1 1 2 2\nregister 0 1\n");
    let either = |truth| cond(boo(truth), assign(0, num(1)), assign(0, num(2)));
    assert_eq!(output_of(either(true), &[7]), "none\nsteps 6\nmost 1 1 2 2\nregister 0 1\n");
    assert_eq!(output_of(either(false), &[7]), "none\nsteps 6\nmost 1 1 2 2\nregister 0 2\n");
    assert_eq!(output_of(absent(), &[7]), "none\nsteps 0\nmost 1 1 0 0\nregister 0 7\n");
    assert_eq!(output_of(absent(), &[]), "none\nsteps 0\nmost 0 0 0 0\n");
}

/// Each cell of 16 registers, and each register's number.
#[test]
fn sixteen_registers() {
    let starts: Vec<i64> = (0..16).map(|index| 100 * index - 700).collect();
    let registers: String = starts
        .iter()
        .enumerate()
        .map(|(index, value)| format!("register {index} {value}\n"))
        .collect();
    for cell in 0..16 {
        let output = format!("cell {cell}\nsteps 1\nmost 16 16 1 1\n{registers}");
        assert_eq!(output_of(deref(cell), &starts), output);
    }
}

/// Values of every count of digits, as an outcome and in a register.
#[test]
fn every_power_of_ten_and_of_two() {
    let tens = (0..19).map(|power| 10_i64.pow(power));
    let twos = (0..63).map(|power| 1_i64 << power);
    for value in tens.chain(twos).chain([i64::MAX]) {
        for value in [value - 1, value, -value, -value - 1] {
            let output = format!("number {value}\nsteps 1\nmost 1 1 1 1\nregister 0 {value}\n");
            assert_eq!(output_of(id(0), &[value]), output);
        }
    }
}

/// The longest output there is: a refused run over 16 of the longest values, with marks of
/// three digits, for no limit has more.
#[test]
fn the_longest_output() {
    let blocks = vec![Layer::Block { plain: 1, cells: 4 }; 40];
    let layers = [blocks, vec![Layer::Sequence; 60]].concat();
    let inner = repeat(boo(true), assign(0, id(0)));
    let tower = Tower { registers: 16, functions: 4, formals: 0, helper_formals: 0, layers, inner };
    let output = agreed_output(&program_input(&encode(&tower.routine()), &[i64::MIN; 16]));
    // 53 blocks and calls hold two entries of V and one of control; the Loop and its Assign
    // come on top of them and of the CSeqs.
    let mut expected = "refused 30 at 0\nsteps 1000000\nmost 176 225 108 116\n".to_string();
    for index in 0..16 {
        expected += &format!("register {index} -9223372036854775808\n");
    }
    assert_eq!(output, expected);
    assert_eq!(expected.len(), 16 + 14 + 21 + 10 * 32 + 6 * 33);
}

/// An Assign with Sums below it, to this depth.
fn sums(depth: usize) -> Root {
    let value = (0..depth - 2).fold(num(1), |value, _| sum(value, num(1)));
    assign(0, value).into()
}

#[test]
fn depth_64_may_pass_and_65_is_6() {
    let starts = &[0];
    assert_eq!(output_of(sums(64), starts), "none\nsteps 189\nmost 1 1 3 126\nregister 0 63\n");
    assert_eq!(output_of(sums(65), starts), "refused 6 at 64\nsteps 0\nmost 0 0 0 0\n");
}

#[test]
fn n_2_000_may_pass_and_2_001_is_2() {
    // 667 Assigns of a Num and 666 CSeqs.
    let line = |assigns: usize| in_turn(vec![assign(0, num(1)); assigns]);
    let whole = image(1, line(667));
    assert_eq!(whole[0], 2_000);
    // Nine CSeqs deep to the left, and the Assign's own step.
    let expected = "none\nsteps 2667\nmost 1 1 2 11\nregister 0 1\n";
    assert_eq!(agreed_output(&program_input(&whole, &[5])), expected);
    let over = image(1, cseq(line(665), assign(0, sum(num(1), sum(num(1), num(1))))));
    assert_eq!(over[0], 2_001);
    let refused = "refused 2 at 0\nsteps 0\nmost 0 0 0 0\n";
    assert_eq!(agreed_output(&program_input(&over, &[5])), refused);
}
