//! Ranges of expressions and cells: what each operator makes of two ranges or two sets of
//! truths, by hand and against every pair of integers between the ends; and what an Assign, a
//! Blk and a root that is an expression leave.

use crate::helpers::*;
use second::build::*;
use second::carried::{operate, Carried, Range, Truths, Unsafe};
use second::tree::*;

const LEAST: i64 = i64::MIN;
const MOST: i64 = i64::MAX;

/// The end of register 0, which is set to this expression over registers 0 and 1.
fn set_to(value: Expression, starts: [(i64, i64); 2]) -> Option<(i64, i64)> {
    match ends_of(assign(0, value), &starts) {
        Ok(ends) => {
            assert_eq!(ends[1], starts[1]);
            Some(ends[0])
        }
        Err(refusal) => {
            assert_eq!(Err(refusal), ends_refused(44, 1));
            None
        }
    }
}

/// What an operator leaves of the two registers' ranges.
fn operated(operator: Operator, left: (i64, i64), right: (i64, i64)) -> Option<(i64, i64)> {
    set_to(binary(operator, id(0), id(1)), [left, right])
}

#[test]
fn sums_and_differences() {
    use Operator::*;
    assert_eq!(operated(Sum, (20, 40), (3, 5)), Some((23, 45)));
    assert_eq!(operated(Sum, (-7, 2), (-3, 10)), Some((-10, 12)));
    assert_eq!(operated(Sub, (20, 40), (3, 5)), Some((15, 37)));
    assert_eq!(operated(Sub, (-7, 2), (-3, 10)), Some((-17, 5)));
    assert_eq!(operated(Sum, (LEAST, 0), (0, MOST)), Some((LEAST, MOST)));
    assert_eq!(operated(Sum, (0, MOST), (0, 0)), Some((0, MOST)));
    assert_eq!(operated(Sum, (0, MOST), (0, 1)), None);
    assert_eq!(operated(Sum, (LEAST, 0), (-1, 0)), None);
    assert_eq!(operated(Sub, (LEAST, -1), (0, 0)), Some((LEAST, -1)));
    assert_eq!(operated(Sub, (-1, -1), (LEAST, LEAST)), Some((MOST, MOST)));
    assert_eq!(operated(Sub, (0, 0), (LEAST, LEAST)), None);
    assert_eq!(operated(Sub, (LEAST, 0), (0, 1)), None);
}

#[test]
fn products_of_every_sign() {
    use Operator::Mul;
    assert_eq!(operated(Mul, (2, 3), (5, 7)), Some((10, 21)));
    assert_eq!(operated(Mul, (-3, 2), (5, 7)), Some((-21, 14)));
    assert_eq!(operated(Mul, (-3, 2), (-7, 5)), Some((-15, 21)));
    assert_eq!(operated(Mul, (-3, -2), (-7, -5)), Some((10, 21)));
    assert_eq!(operated(Mul, (-3, -2), (5, 7)), Some((-21, -10)));
    assert_eq!(operated(Mul, (0, 0), (LEAST, MOST)), Some((0, 0)));
    assert_eq!(operated(Mul, (LEAST, MOST), (1, 1)), Some((LEAST, MOST)));
    assert_eq!(operated(Mul, (LEAST, MOST), (0, 1)), Some((LEAST, MOST)));
    assert_eq!(operated(Mul, (LEAST + 1, MOST), (-1, 1)), Some((LEAST + 1, MOST)));
    assert_eq!(operated(Mul, (LEAST, 0), (-1, 1)), None);
    assert_eq!(operated(Mul, (1 << 31, 1 << 32), (1 << 30, 1 << 31)), None);
    assert_eq!(operated(Mul, (LEAST, LEAST), (LEAST, LEAST)), None);
}

/// The quotient is rounded down, so both ends are.
#[test]
fn quotients_of_every_sign() {
    use Operator::Div;
    assert_eq!(operated(Div, (20, 40), (3, 7)), Some((2, 13)));
    assert_eq!(operated(Div, (-7, 7), (2, 2)), Some((-4, 3)));
    assert_eq!(operated(Div, (-7, 7), (2, 3)), Some((-4, 3)));
    assert_eq!(operated(Div, (-7, 7), (-3, -2)), Some((-4, 3)));
    assert_eq!(operated(Div, (7, 7), (-2, -2)), Some((-4, -4)));
    assert_eq!(operated(Div, (LEAST, MOST), (1, 5)), Some((LEAST, MOST)));
    assert_eq!(operated(Div, (LEAST + 1, MOST), (-5, -1)), Some((LEAST + 1, MOST)));
    assert_eq!(operated(Div, (0, 0), (LEAST, -1)), Some((0, 0)));
}

/// The lowest integer by −1 is outside the integers, also where each is one end of several.
#[test]
fn the_lowest_by_minus_one() {
    use Operator::Div;
    assert_eq!(operated(Div, (LEAST, LEAST), (-1, -1)), None);
    assert_eq!(operated(Div, (LEAST, 5), (-9, -1)), None);
    assert_eq!(operated(Div, (LEAST, 5), (-9, -2)), Some((-3, 1 << 62)));
    assert_eq!(operated(Div, (LEAST + 1, 5), (-9, -1)), Some((-5, MOST)));
}

/// A divisor's range that holds 0, as an end or between the ends, whatever the dividend is.
#[test]
fn divisors_that_may_be_0() {
    use Operator::Div;
    for dividend in [(0, 0), (1, 10), (LEAST, MOST)] {
        for divisor in [(0, 0), (-1, 1), (0, 5), (-5, 0), (-5, 9), (LEAST, MOST)] {
            assert_eq!(operated(Div, dividend, divisor), None, "{dividend:?} by {divisor:?}");
        }
    }
    for divisor in [(1, 5), (-5, -1), (1, 1), (1, MOST), (LEAST, -1)] {
        assert!(operated(Div, (1, 10), divisor).is_some(), "{divisor:?}");
    }
}

/// No value is connected with another, not even with itself.
#[test]
fn nothing_is_connected() {
    let both = [(20, 40), (0, 0)];
    assert_eq!(set_to(sub(id(0), id(0)), both), Some((-20, 20)));
    assert_eq!(set_to(mul(id(0), id(0)), [(-3, 2), (0, 0)]), Some((-6, 9)));
    assert_eq!(set_to(div(id(0), id(0)), both), Some((0, 2)));
    assert_eq!(set_to(sum(sub(id(0), id(0)), id(0)), both), Some((0, 60)));
}

/// Between 0 and 1: whether a truth may be so, told by the command that a Cond carries.
fn truths_of(test: Expression, starts: [(i64, i64); 2]) -> (bool, bool) {
    let told = cond(test, assign(2, num(1)), assign(2, num(0)));
    let ends = ends_of(told, &[starts[0], starts[1], (7, 7)]).expect("ends");
    (ends[2].1 == 1, ends[2].0 == 0)
}

const TRUE: (bool, bool) = (true, false);
const FALSE: (bool, bool) = (false, true);
const BOTH: (bool, bool) = (true, true);

#[test]
fn comparisons() {
    use Operator::*;
    let compared = |operator, left, right| truths_of(binary(operator, id(0), id(1)), [left, right]);
    assert_eq!(compared(Eq, (0, 10), (5, 5)), BOTH);
    assert_eq!(compared(Eq, (0, 0), (0, 0)), TRUE);
    assert_eq!(compared(Eq, (0, 10), (11, 20)), FALSE);
    assert_eq!(compared(Eq, (0, 10), (10, 20)), BOTH);
    assert_eq!(compared(Eq, (LEAST, MOST), (MOST, MOST)), BOTH);
    for (operator, reversed) in [(Lt, Gt), (Le, Ge)] {
        let same = operator == Le;
        for (left, right, expected) in [
            ((0, 4), (5, 9), TRUE),
            ((0, 5), (5, 9), if same { TRUE } else { BOTH }),
            ((0, 6), (5, 9), BOTH),
            ((5, 9), (0, 4), FALSE),
            ((5, 9), (0, 5), if same { BOTH } else { FALSE }),
            ((5, 9), (0, 6), BOTH),
            ((5, 5), (5, 5), if same { TRUE } else { FALSE }),
            ((LEAST, LEAST), (MOST, MOST), TRUE),
            ((MOST, MOST), (LEAST, LEAST), FALSE),
            ((LEAST, MOST), (LEAST, MOST), BOTH),
        ] {
            assert_eq!(
                compared(operator, left, right),
                expected,
                "{operator:?} {left:?} {right:?}"
            );
            assert_eq!(
                compared(reversed, right, left),
                expected,
                "{reversed:?} {right:?} {left:?}"
            );
        }
    }
}

/// Every operator on every two small ranges gives just what all pairs of integers give.
#[test]
fn every_two_small_ranges() {
    use Operator::*;
    let ranges: Vec<(i64, i64)> =
        (-4..=4).flat_map(|lowest| (lowest..=4).map(move |highest| (lowest, highest))).collect();
    let carried = |(lowest, highest)| Carried::Range(Range::new(lowest, highest));
    for (left, right) in
        ranges.iter().flat_map(|left| ranges.iter().map(move |right| (*left, *right)))
    {
        let pairs =
            || (left.0..=left.1).flat_map(|one| (right.0..=right.1).map(move |other| (one, other)));
        for operator in [Sum, Sub, Mul, Div] {
            let result = |(one, other): (i64, i64)| match operator {
                Sum => one + other,
                Sub => one - other,
                Mul => one * other,
                _ => (one as f64 / other as f64).floor() as i64,
            };
            let found = operate(operator, carried(left), carried(right));
            if operator == Div && (right.0..=right.1).contains(&0) {
                assert_eq!(found, Err(Unsafe));
                continue;
            }
            let least = pairs().map(result).min().expect("a pair");
            let greatest = pairs().map(result).max().expect("a pair");
            assert_eq!(found, Ok(carried((least, greatest))), "{operator:?} {left:?} {right:?}");
        }
        for operator in [Eq, Lt, Le, Gt, Ge] {
            let result = |one: &i64, other: &i64| match operator {
                Eq => one == other,
                Lt => one < other,
                Le => one <= other,
                Gt => one > other,
                _ => one >= other,
            };
            let is_true = pairs().any(|(one, other)| result(&one, &other));
            let is_false = pairs().any(|(one, other)| !result(&one, &other));
            let expected = Carried::Truths(Truths { is_true, is_false });
            assert_eq!(operate(operator, carried(left), carried(right)), Ok(expected));
        }
    }
}

/// And, Or, Eq and Not over every set of truths, each choice gone through.
#[test]
fn every_two_sets_of_truths() {
    use Operator::*;
    let sets: [&[bool]; 3] = [&[true], &[false], &[true, false]];
    let of = |truths: &[bool]| Truths {
        is_true: truths.contains(&true),
        is_false: truths.contains(&false),
    };
    let carried = |truths: &[bool]| Carried::Truths(of(truths));
    for left in sets {
        for right in sets {
            for operator in [And, Or, Eq] {
                let result = |one, other| match operator {
                    And => one && other,
                    Or => one || other,
                    _ => one == other,
                };
                let choices =
                    left.iter().flat_map(|one| right.iter().map(|other| result(*one, *other)));
                let choices: Vec<bool> = choices.collect();
                let found = operate(operator, carried(left), carried(right));
                assert_eq!(found, Ok(carried(&choices)), "{operator:?} {left:?} {right:?}");
            }
        }
        let turned: Vec<bool> = left.iter().map(|truth| !truth).collect();
        assert_eq!(of(left).negated(), of(&turned));
    }
}

/// Truths by way of a routine: one that may be both is no more certain for being its own
/// contrary.
#[test]
fn truths_are_not_connected() {
    let open = || lt(id(0), id(1));
    let starts = [(0, 10), (5, 5)];
    assert_eq!(truths_of(or(open(), not(open())), starts), BOTH);
    assert_eq!(truths_of(and(open(), not(open())), starts), BOTH);
    assert_eq!(truths_of(eq(open(), open()), starts), BOTH);
    assert_eq!(truths_of(or(open(), boo(true)), starts), TRUE);
    assert_eq!(truths_of(and(open(), boo(false)), starts), FALSE);
    assert_eq!(truths_of(and(open(), boo(true)), starts), BOTH);
    assert_eq!(truths_of(not(open()), starts), BOTH);
    assert_eq!(truths_of(not(boo(false)), starts), TRUE);
    assert_eq!(truths_of(not(or(open(), boo(true))), starts), FALSE);
    assert_eq!(truths_of(eq(boo(false), boo(false)), starts), TRUE);
}

/// Numbers of a routine are their own ends, up to the greatest word.
#[test]
fn numbers_and_truths_of_the_tree() {
    assert_eq!(
        ends_of(assign(0, num(u32::MAX)), &[(1, 2)]),
        Ok(vec![(4_294_967_295, 4_294_967_295)])
    );
    assert_eq!(truths_of(boo(true), [(0, 0), (0, 0)]), TRUE);
    assert_eq!(truths_of(boo(false), [(0, 0), (0, 0)]), FALSE);
}

/// Registers that nothing sets end as they start; each has its own range.
#[test]
fn registers_that_stay() {
    let starts = [(LEAST, MOST), (3, 3), (-5, 7), (MOST, MOST)];
    let mut ends = starts.to_vec();
    ends[2] = (4, 4);
    assert_eq!(ends_of(assign(2, sum(id(1), num(1))), &starts), Ok(ends));
    let sixteen: Vec<(i64, i64)> = (0..16).map(|index| (-index, 2 * index)).collect();
    let mut ends = sixteen.clone();
    ends[15] = (-15 - 14, 30 + 28);
    assert_eq!(ends_of(assign(15, sum(id(15), id(14))), &sixteen), Ok(ends));
}

/// A later command starts from what the earlier one has left.
#[test]
fn one_after_another() {
    let all = vec![
        assign(0, sum(id(0), num(1))),
        assign(1, mul(id(0), num(2))),
        assign(0, sub(id(1), id(0))),
    ];
    assert_eq!(ends_of(commands(all), &[(20, 40), (9, 9)]), Ok(vec![(1, 61), (42, 82)]));
}

/// An expression is carried too: the registers end as they start, or it is 44.
#[test]
fn a_root_that_is_an_expression() {
    let starts = [(0, 5), (1, 3)];
    for root in [sum(id(0), id(1)), eq(id(0), num(3)), deref(1), div(id(0), id(1)), num(7)] {
        assert_eq!(ends_of(root, &starts), Ok(starts.to_vec()));
    }
    assert_eq!(ends_of(div(id(1), id(0)), &starts), ends_refused(44, 0));
    assert_eq!(ends_of(not(eq(num(1), div(id(1), id(0)))), &starts), ends_refused(44, 3));
}

/// A slot with no routine: the ends are the starts.
#[test]
fn a_slot_with_no_routine() {
    assert_eq!(ends_of(absent(), &[]), Ok(vec![]));
    let starts: Vec<(i64, i64)> = (0..16).map(|index| (LEAST + index, index)).collect();
    assert_eq!(ends_of(absent(), &starts), Ok(starts));
    assert_eq!(ends_of(absent(), &[(LEAST, MOST)]), Ok(vec![(LEAST, MOST)]));
    assert_eq!(ends_of(absent(), &[(1, 0)]), ends_refused(42, 0));
}
