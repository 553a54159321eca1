//! Div gives the largest integer not above the quotient, whatever the signs.

use crate::helpers::*;
use second::build::*;
use second::engine::Outcome;
use second::state::Heights;
use second::tree::Command;

const LEAST: i64 = i64::MIN;
const MOST: i64 = i64::MAX;

/// The outcome of a Div of two integers held in registers.
fn quotient(left: i64, right: i64) -> Outcome {
    outcome(div(id(0), id(1)), &[left, right]).0
}

#[test]
fn division_rounds_down_for_all_signs() {
    let table = [
        (7, 2, 3),
        (-7, 2, -4),
        (7, -2, -4),
        (-7, -2, 3),
        (8, 3, 2),
        (-8, 3, -3),
        (8, -3, -3),
        (-8, -3, 2),
        (1, 2, 0),
        (-1, 2, -1),
        (1, -2, -1),
        (-1, -2, 0),
        (0, 2, 0),
        (0, -2, 0),
    ];
    for (left, right, expected) in table {
        assert_eq!(quotient(left, right), Outcome::Number(expected), "{left} by {right}");
    }
}

#[test]
fn exact_quotients_are_not_rounded() {
    for right in [-9, -2, -1, 1, 2, 9, 1 << 31, -(1 << 31)] {
        for times in [-1_000_000, -3, -1, 0, 1, 3, 1_000_000] {
            assert_eq!(quotient(times * right, right), Outcome::Number(times));
        }
    }
}

#[test]
fn by_one_and_minus_one() {
    for left in [0, 1, -1, 7, -7, MOST, -MOST] {
        assert_eq!(quotient(left, 1), Outcome::Number(left));
        assert_eq!(quotient(left, -1), Outcome::Number(-left));
    }
    assert_eq!(quotient(LEAST, 1), Outcome::Number(LEAST));
    assert_eq!(outcome(div(id(0), id(1)), &[LEAST, -1]), (refused(32, 0), 3));
}

#[test]
fn at_the_ends_of_the_integers() {
    let table = [
        (LEAST, 2, -(1 << 62)),
        (LEAST, -2, 1 << 62),
        (LEAST, 3, -3_074_457_345_618_258_603),
        (LEAST, -3, 3_074_457_345_618_258_602),
        (MOST, 2, (1 << 62) - 1),
        (MOST, -2, -(1 << 62)),
        (LEAST, LEAST, 1),
        (MOST, MOST, 1),
        (LEAST, MOST, -2),
        (MOST, LEAST, -1),
        (LEAST + 1, MOST, -1),
        (1, LEAST, -1),
        (-1, LEAST, 0),
        (0, LEAST, 0),
        (1, MOST, 0),
        (-1, MOST, -1),
        (MOST - 1, MOST, 0),
        (LEAST, LEAST + 1, 1),
        (LEAST + 1, LEAST, 0),
    ];
    for (left, right, expected) in table {
        assert_eq!(quotient(left, right), Outcome::Number(expected), "{left} by {right}");
    }
}

/// The statement itself: q × b ≤ a < (q + 1) × b for b above 0, mirrored below 0.
#[test]
fn the_largest_integer_not_above_the_quotient() {
    let middles = [0, 6, 100, 1 << 31, 1 << 32, 1 << 62, MOST];
    let near = middles.iter().flat_map(|middle: &i64| (-2..=2).map(|by| middle.saturating_add(by)));
    let mut all: Vec<i64> = near.flat_map(|value| [value, -value, -1 - value]).collect();
    all.sort_unstable();
    all.dedup();
    for left in &all {
        for right in all.iter().filter(|right| **right != 0) {
            let found = match quotient(*left, *right) {
                Outcome::Number(found) => i128::from(found),
                other => {
                    assert_eq!((*left, *right, other), (LEAST, -1, refused(32, 0)));
                    continue;
                }
            };
            let (left, right) = (i128::from(*left), i128::from(*right));
            let (this, next) = (found * right, (found + 1) * right);
            let largest =
                if right > 0 { this <= left && left < next } else { this >= left && left > next };
            assert!(largest, "{left} by {right} is not {found}");
        }
    }
}

/// What has changed from the rule before, which dropped the fraction toward zero: quotients that
/// are below 0 and not exact are one less, and no other differs.
#[test]
fn one_less_than_toward_zero_where_below_0_and_not_exact() {
    for left in (-30..=30).chain([LEAST, LEAST + 1, MOST]) {
        for right in (-12..=12).chain([LEAST, MOST]).filter(|right| *right != 0) {
            let Some(toward_zero) = left.checked_div(right) else { continue };
            let below = (left < 0) != (right < 0) && left % right != 0;
            let expected = toward_zero - i64::from(below);
            assert_eq!(quotient(left, right), Outcome::Number(expected), "{left} by {right}");
        }
    }
}

/// Positions that are so many divisors apart have quotients that are as many apart, on one
/// side of 0 and across it.
#[test]
fn quotients_lie_on_one_grid() {
    for right in [2, 5, -2, -5] {
        for left in -12..=12 {
            let Outcome::Number(here) = quotient(left, right) else { panic!("{left} by {right}") };
            for by in [-7, -1, 1, 7] {
                assert_eq!(quotient(left + by * right, right), Outcome::Number(here + by));
            }
        }
    }
}

/// Register 0 is halved until it stays as it is.
fn halving() -> Command {
    let half = || div(id(0), num(2));
    repeat(not(eq(id(0), half())), assign(0, half()))
}

/// To the right of the datum halving comes to 0, to the left of it to −1.
#[test]
fn halving_comes_to_0_or_to_minus_1() {
    for (start, end, halvings) in [(0, 0, 0), (7, 0, 3), (-1, -1, 0), (-7, -1, 3), (-8, -1, 3)] {
        let (reply, registers) = run_tree(halving(), &[start]);
        // The Loop and its mark are 2 steps, its test 9, an Assign of the half 6.
        assert_eq!((reply.outcome, registers), (Outcome::None, vec![end]), "{start}");
        assert_eq!(reply.steps, 11 + halvings * (6 + 11), "{start}");
    }
}

/// A loop that halves until 0 does not end to the left of the datum, for −1 by 2 is −1.
#[test]
fn halving_until_0_uses_up_the_budget_below_0() {
    let until_0 = || repeat(not(eq(id(0), num(0))), assign(0, div(id(0), num(2))));
    let (reply, registers) = run_tree(until_0(), &[7]);
    assert_eq!((reply.outcome, registers), (Outcome::None, vec![0]));
    let (reply, registers) = run_at(&image(1, until_0()), &[-7], 1_000);
    let marks = Heights::new(1, 1, 3, 5);
    assert_eq!((reply, registers), (withheld(30, 1_000, marks), vec![-1]));
}
