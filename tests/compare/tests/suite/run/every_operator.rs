//! Every operator on every two of many notable integers, and on truths.

use crate::helpers::{agreed_run, agreed_tree_run, with_starts};
use second::build::*;
use second::engine::{Outcome, Reply};
use second::generate::random::Random;
use second::state::Heights;
use second::tree::Operator::{self, *};

const OF_INTEGERS: [Operator; 9] = [Sum, Sub, Mul, Div, Eq, Lt, Le, Gt, Ge];

/// Both ends of the integers, of 32 bits and of their square roots, small ones,
/// and each with its neighbours and with the other sign.
fn notable() -> Vec<i64> {
    let middles = [0, 2, 7, 10, 1 << 31, 1 << 32, 3_037_000_500, 1 << 62, i64::MIN, i64::MAX];
    let near = middles.into_iter().flat_map(|middle: i64| {
        [-1, 0, 1].into_iter().filter_map(move |by| middle.checked_add(by))
    });
    let mut all: Vec<i64> = near.flat_map(|value| [value, value.wrapping_neg()]).collect();
    all.sort_unstable();
    all.dedup();
    all
}

/// The result by the machine's own checked operations.
fn result(operator: Operator, left: i64, right: i64) -> Result<Outcome, u32> {
    let number = |result: Option<i64>| result.map(Outcome::Number).ok_or(32);
    match operator {
        Sum => number(left.checked_add(right)),
        Sub => number(left.checked_sub(right)),
        Mul => number(left.checked_mul(right)),
        Div if right == 0 => Err(31),
        Div => number(rounded_down(left, right)),
        Eq => Ok(Outcome::Truth(left == right)),
        Lt => Ok(Outcome::Truth(left < right)),
        Le => Ok(Outcome::Truth(left <= right)),
        Gt => Ok(Outcome::Truth(left > right)),
        Ge => Ok(Outcome::Truth(left >= right)),
        And | Or => unreachable!("they take truths"),
    }
}

/// A quotient with both signs turned where the divisor is below 0: by a divisor above 0 the
/// Euclidean quotient, whose remainder is never below 0, is the largest integer not above.
fn rounded_down(left: i64, right: i64) -> Option<i64> {
    let turned = |value| i128::from(value) * i128::from(right.signum());
    turned(left).div_euclid(turned(right)).try_into().ok()
}

#[test]
fn of_two_integers() {
    let random = &mut Random::new(1);
    let marks = Heights::new(2, 2, 2, 3);
    let notable = notable();
    for operator in OF_INTEGERS {
        let mut case = with_starts(image(2, binary(operator, id(0), id(1))), &[0, 0]);
        for left in &notable {
            for right in &notable {
                case.registers = vec![*left, *right];
                let ran = agreed_run(&case, random);
                match result(operator, *left, *right) {
                    Ok(outcome) => assert_eq!(ran.reply, Reply { outcome, steps: 4, marks }),
                    Err(number) => assert_eq!((ran.refused(), ran.reply.steps), (number, 3)),
                }
                assert_eq!(ran.registers, [*left, *right]);
            }
        }
    }
}

/// An Assign of the result: stored, or the register kept.
#[test]
fn of_an_assigns_value() {
    let random = &mut Random::new(2);
    let notable = notable();
    for operator in [Sum, Sub, Mul, Div] {
        let root = assign(0, binary(operator, id(0), id(1)));
        let mut case = with_starts(image(2, root), &[0, 0]);
        for left in &notable {
            for right in &notable {
                case.registers = vec![*left, *right];
                let ran = agreed_run(&case, random);
                let first = match result(operator, *left, *right) {
                    Ok(Outcome::Number(stored)) => stored,
                    _ => *left,
                };
                assert_eq!(ran.registers, [first, *right]);
            }
        }
    }
}

#[test]
fn of_two_truths() {
    let truths = [false, true];
    for (left, right) in truths.iter().flat_map(|left| truths.map(|right| (*left, right))) {
        let table = [(And, left && right), (Or, left || right), (Eq, left == right)];
        for (operator, truth) in table {
            let ran = agreed_tree_run(binary(operator, boo(left), boo(right)), &[]);
            assert_eq!((ran.reply.outcome, ran.reply.steps), (Outcome::Truth(truth), 4));
        }
        let ran = agreed_tree_run(not(boo(left)), &[]);
        assert_eq!((ran.reply.outcome, ran.reply.steps), (Outcome::Truth(!left), 3));
    }
}

/// A fault on one side, on the other, on both: the first operand's is met.
#[test]
fn of_faults_on_either_side() {
    let sides = || [num(3), div(num(1), num(0)), mul(id(0), id(0))];
    for operator in OF_INTEGERS {
        for (left_at, left) in sides().into_iter().enumerate() {
            for (right_at, right) in sides().into_iter().enumerate() {
                let ran = agreed_tree_run(binary(operator, left.clone(), right), &[i64::MAX]);
                let refused = [[0, 31, 32], [31; 3], [32; 3]][left_at][right_at];
                assert_eq!(ran.refused(), refused, "{operator:?} {left_at} {right_at}");
            }
        }
    }
}
