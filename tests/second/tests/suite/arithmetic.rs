//! Operators: results, their order of running, 31 and 32.

use crate::helpers::*;
use second::build::*;
use second::engine::Outcome;
use second::state::Heights;
use second::tree::Operator::{self, *};

const LEAST: i64 = i64::MIN;
const MOST: i64 = i64::MAX;

/// An operator's outcome for two integers held in registers.
fn of(operator: Operator, left: i64, right: i64) -> Outcome {
    outcome(binary(operator, id(0), id(1)), &[left, right]).0
}

fn of_truths(operator: Operator, left: bool, right: bool) -> Outcome {
    outcome(binary(operator, boo(left), boo(right)), &[]).0
}

#[test]
fn a_zero_divisor_is_31_whatever_is_divided() {
    for left in [0, 1, -1, LEAST, MOST] {
        assert_eq!(of(Div, left, 0), refused(31, 0));
    }
    assert_eq!(of(Div, 0, LEAST), Outcome::Number(0));
}

#[test]
fn results_outside_the_integers_are_32_and_the_ends_pass() {
    assert_eq!(of(Div, LEAST, -1), refused(32, 0));
    assert_eq!(of(Sum, MOST, 1), refused(32, 0));
    assert_eq!(of(Sum, MOST, 0), Outcome::Number(MOST));
    assert_eq!(of(Sum, MOST - 1, 1), Outcome::Number(MOST));
    assert_eq!(of(Sum, LEAST, -1), refused(32, 0));
    assert_eq!(of(Sum, LEAST + 1, -1), Outcome::Number(LEAST));
    assert_eq!(of(Sum, LEAST, LEAST), refused(32, 0));
    assert_eq!(of(Sum, LEAST, MOST), Outcome::Number(-1));
    assert_eq!(of(Sub, LEAST, 1), refused(32, 0));
    assert_eq!(of(Sub, 0, LEAST), refused(32, 0));
    assert_eq!(of(Sub, -1, LEAST), Outcome::Number(MOST));
    assert_eq!(of(Sub, MOST, LEAST), refused(32, 0));
    assert_eq!(of(Sub, LEAST, LEAST), Outcome::Number(0));
    assert_eq!(of(Mul, LEAST, -1), refused(32, 0));
    assert_eq!(of(Mul, -1, LEAST), refused(32, 0));
    assert_eq!(of(Mul, LEAST, 1), Outcome::Number(LEAST));
    assert_eq!(of(Mul, LEAST, LEAST), refused(32, 0));
    assert_eq!(of(Mul, MOST, MOST), refused(32, 0));
    assert_eq!(of(Mul, MOST, -1), Outcome::Number(-MOST));
    assert_eq!(of(Mul, 1 << 32, 1 << 31), refused(32, 0));
    assert_eq!(of(Mul, -(1 << 32), 1 << 31), Outcome::Number(LEAST));
    assert_eq!(of(Mul, 3_037_000_500, 3_037_000_500), refused(32, 0));
    assert_eq!(of(Mul, 3_037_000_499, 3_037_000_499), Outcome::Number(9_223_372_030_926_249_001));
    // The product of 2^32 with itself is 0 in 64 bits.
    assert_eq!(of(Mul, 1 << 32, 1 << 32), refused(32, 0));
}

#[test]
fn comparisons_of_integers() {
    for (left, right) in
        [(1, 2), (2, 1), (2, 2), (-1, 1), (LEAST, MOST), (MOST, LEAST), (LEAST, LEAST)]
    {
        assert_eq!(of(Eq, left, right), Outcome::Truth(left == right));
        assert_eq!(of(Lt, left, right), Outcome::Truth(left < right));
        assert_eq!(of(Le, left, right), Outcome::Truth(left <= right));
        assert_eq!(of(Gt, left, right), Outcome::Truth(left > right));
        assert_eq!(of(Ge, left, right), Outcome::Truth(left >= right));
    }
}

#[test]
fn operators_on_truths() {
    for (left, right) in [(false, false), (false, true), (true, false), (true, true)] {
        assert_eq!(of_truths(And, left, right), Outcome::Truth(left && right));
        assert_eq!(of_truths(Or, left, right), Outcome::Truth(left || right));
        assert_eq!(of_truths(Eq, left, right), Outcome::Truth(left == right));
    }
    assert_eq!(outcome(not(boo(true)), &[]), (Outcome::Truth(false), 3));
    assert_eq!(outcome(not(boo(false)), &[]), (Outcome::Truth(true), 3));
}

/// And and Or run both sides, so a fault on the right is met whatever the left
/// is. Steps: the operator, Boo, Eq, Div, 1, 0; the Div's mark is withheld.
#[test]
fn and_and_or_run_both_sides() {
    let faulty = || eq(div(num(1), num(0)), num(1));
    for left in [false, true] {
        assert_eq!(outcome(and(boo(left), faulty()), &[]), (refused(31, 0), 6));
        assert_eq!(outcome(or(boo(left), faulty()), &[]), (refused(31, 0), 6));
    }
    // Without a fault the steps are the same whatever the truths are.
    for left in [false, true] {
        assert_eq!(outcome(and(boo(left), boo(true)), &[]).1, 4);
        assert_eq!(outcome(or(boo(left), boo(true)), &[]).1, 4);
    }
}

/// The left side has a zero divisor, the right one leaves the integers.
#[test]
fn the_first_operand_runs_first() {
    let zero = || div(num(1), num(0));
    let over = || mul(id(0), id(0));
    assert_eq!(outcome(sum(zero(), over()), &[MOST]), (refused(31, 0), 4));
    assert_eq!(outcome(sum(over(), zero()), &[MOST]), (refused(32, 0), 4));
}

#[test]
fn subtraction_and_division_keep_their_order_under_nesting() {
    // (10 − 3) − 2, 10 − (3 − 2), (100 / 5) / 2, 100 / (5 / 2).
    assert_eq!(outcome(sub(sub(num(10), num(3)), num(2)), &[]), (Outcome::Number(5), 7));
    assert_eq!(outcome(sub(num(10), sub(num(3), num(2))), &[]), (Outcome::Number(9), 7));
    assert_eq!(outcome(div(div(num(100), num(5)), num(2)), &[]), (Outcome::Number(10), 7));
    assert_eq!(outcome(div(num(100), div(num(5), num(2))), &[]), (Outcome::Number(50), 7));
}

/// A step withheld for 31 or 32 is not counted and stores nothing.
#[test]
fn faults_leave_the_registers_as_they_were() {
    let root = cseq(assign(0, num(5)), assign(0, div(num(1), num(0))));
    let (reply, registers) = run_tree(root, &[9]);
    // CSeq; Assign, Num, mark; Assign, Div, 1, 0.
    assert_eq!(reply, withheld(31, 8, Heights::new(1, 1, 3, 4)));
    assert_eq!(registers, [5]);
}
