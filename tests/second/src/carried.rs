//! What is carried in place of a value where registers are known only within limits: of a
//! number its two ends, which stand for all integers between them; of a truth those that are
//! possible; a location as it is. And what the operators make of that.

use crate::arithmetic;
use crate::store::{Location, Value};
use crate::tree::Operator;
use std::cmp::Ordering;

#[derive(Clone, Copy, Debug, PartialEq, Eq)]
pub enum Carried {
    Range(Range),
    Truths(Truths),
    Location(Location),
}

/// All integers from the lowest to the highest, both included.
#[derive(Clone, Copy, Debug, PartialEq, Eq)]
pub struct Range {
    pub lowest: i64,
    pub highest: i64,
}

/// The truths that are possible: one of them or both.
#[derive(Clone, Copy, Debug, PartialEq, Eq)]
pub struct Truths {
    pub is_true: bool,
    pub is_false: bool,
}

/// Some integers of the ranges have no result among the integers.
#[derive(Clone, Copy, Debug, PartialEq, Eq)]
pub struct Unsafe;

impl Range {
    pub const fn new(lowest: i64, highest: i64) -> Range {
        Range { lowest, highest }
    }

    pub fn holds(self, number: i64) -> bool {
        (self.lowest..=self.highest).contains(&number)
    }

    /// The wider ends of two ranges.
    pub fn widened(self, other: Range) -> Range {
        Range::new(self.lowest.min(other.lowest), self.highest.max(other.highest))
    }
}

impl Truths {
    pub const BOTH: Truths = Truths { is_true: true, is_false: true };

    pub fn only(truth: bool) -> Truths {
        Truths { is_true: truth, is_false: !truth }
    }

    fn of(truths: impl Iterator<Item = bool>) -> Truths {
        truths.fold(Truths { is_true: false, is_false: false }, |all, truth| Truths {
            is_true: all.is_true || truth,
            is_false: all.is_false || !truth,
        })
    }

    fn each(self) -> impl Iterator<Item = bool> + Clone {
        let is_true = self.is_true.then_some(true);
        is_true.into_iter().chain(self.is_false.then_some(false))
    }

    pub fn negated(self) -> Truths {
        Truths::of(self.each().map(|truth| !truth))
    }

    pub fn widened(self, other: Truths) -> Truths {
        Truths::of(self.each().chain(other.each()))
    }
}

impl Carried {
    pub fn number(number: i64) -> Carried {
        Carried::Range(Range::new(number, number))
    }

    pub fn truth(truth: bool) -> Carried {
        Carried::Truths(Truths::only(truth))
    }

    /// What one cell holds after either of two commands: the wider ends, every truth that
    /// either leaves. A location is set by no command, so both leave the same.
    pub fn widened(self, other: Carried) -> Carried {
        match (self, other) {
            (Carried::Range(one), Carried::Range(other)) => Carried::Range(one.widened(other)),
            (Carried::Truths(one), Carried::Truths(other)) => Carried::Truths(one.widened(other)),
            (Carried::Location(one), Carried::Location(other)) if one == other => self,
            _ => panic!("a cell holds {self:?} after one command and {other:?} after the other"),
        }
    }
}

/// What an operator makes of two carried values. Of values that it does not take it panics:
/// that must not come about in a routine the checker passes.
pub fn operate(operator: Operator, left: Carried, right: Carried) -> Result<Carried, Unsafe> {
    use Operator::*;
    match (left, right) {
        (Carried::Range(left), Carried::Range(right)) => match operator {
            Sum | Sub | Mul | Div => ends(operator, left, right).map(Carried::Range),
            _ => Ok(Carried::Truths(compared(operator, left, right))),
        },
        (Carried::Truths(left), Carried::Truths(right)) => {
            let pairs = left.each().flat_map(|left| right.each().map(move |right| (left, right)));
            let truth = |(left, right)| match operator {
                Eq => left == right,
                And => left && right,
                Or => left || right,
                _ => panic!("{operator:?} of truths"),
            };
            Ok(Carried::Truths(Truths::of(pairs.map(truth))))
        }
        _ => panic!("{operator:?} of {left:?} and {right:?}"),
    }
}

/// The least and the greatest result over the four pairs of the operands' ends, each worked
/// out as the automaton does. A divisor's range may hold 0 between its ends too.
fn ends(operator: Operator, left: Range, right: Range) -> Result<Range, Unsafe> {
    if operator == Operator::Div && right.holds(0) {
        return Err(Unsafe);
    }
    let result = |left: i64, right: i64| {
        let (left, right) = (Value::Integer(left), Value::Integer(right));
        match arithmetic::operate(operator, left, right) {
            Some(Ok(Value::Integer(result))) => Ok(result),
            _ => Err(Unsafe),
        }
    };
    let first = result(left.lowest, right.lowest)?;
    let others = [
        result(left.lowest, right.highest)?,
        result(left.highest, right.lowest)?,
        result(left.highest, right.highest)?,
    ];
    let wider = |range: Range, end: &i64| range.widened(Range::new(*end, *end));
    Ok(others.iter().fold(Range::new(first, first), wider))
}

/// Each truth that some pair gives. How a pair compares is the sign of its difference, and
/// the differences of two ranges are all integers between the least and the greatest.
fn compared(operator: Operator, left: Range, right: Range) -> Truths {
    let least = i128::from(left.lowest) - i128::from(right.highest);
    let greatest = i128::from(left.highest) - i128::from(right.lowest);
    let orders = [
        (least < 0, Ordering::Less),
        (least <= 0 && greatest >= 0, Ordering::Equal),
        (greatest > 0, Ordering::Greater),
    ];
    let met = orders.into_iter().filter(|(is_met, _)| *is_met);
    Truths::of(met.map(|(_, order)| match operator {
        Operator::Eq => order.is_eq(),
        Operator::Lt => order.is_lt(),
        Operator::Le => order.is_le(),
        Operator::Gt => order.is_gt(),
        Operator::Ge => order.is_ge(),
        _ => panic!("{operator:?} of numbers"),
    }))
}
