//! What an operator's mark makes of its two values. Integers are −2^63 to
//! 2^63 − 1; results are worked out in 128 bits and judged against that range.

use crate::refusal;
use crate::store::Value;
use crate::tree::Operator;

/// The result, or 31 (zero divisor) or 32 (result outside the integers).
/// `None` where the operator does not take values of these sorts.
pub fn operate(operator: Operator, left: Value, right: Value) -> Option<Result<Value, u32>> {
    match (left, right) {
        (Value::Integer(left), Value::Integer(right)) => {
            integers(operator, left.into(), right.into())
        }
        (Value::Truth(left), Value::Truth(right)) => truths(operator, left, right).map(Ok),
        _ => None,
    }
}

fn integers(operator: Operator, left: i128, right: i128) -> Option<Result<Value, u32>> {
    let truth = |truth| Some(Ok(Value::Truth(truth)));
    match operator {
        Operator::Sum => Some(fit(left + right)),
        Operator::Sub => Some(fit(left - right)),
        Operator::Mul => Some(fit(left * right)),
        Operator::Div if right == 0 => Some(Err(refusal::ZERO_DIVISOR)),
        Operator::Div => Some(fit(quotient(left, right))),
        Operator::Eq => truth(left == right),
        Operator::Lt => truth(left < right),
        Operator::Le => truth(left <= right),
        Operator::Gt => truth(left > right),
        Operator::Ge => truth(left >= right),
        Operator::And | Operator::Or => None,
    }
}

/// The largest integer not above the quotient: the one that leaves a remainder of the
/// divisor's sign, or none. Division of i128 drops the fraction toward zero, and leaves a
/// remainder of the dividend's sign.
fn quotient(left: i128, right: i128) -> i128 {
    let (toward_zero, remainder) = (left / right, left % right);
    if remainder != 0 && remainder.signum() != right.signum() {
        toward_zero - 1
    } else {
        toward_zero
    }
}

fn truths(operator: Operator, left: bool, right: bool) -> Option<Value> {
    match operator {
        Operator::Eq => Some(Value::Truth(left == right)),
        Operator::And => Some(Value::Truth(left && right)),
        Operator::Or => Some(Value::Truth(left || right)),
        _ => None,
    }
}

fn fit(result: i128) -> Result<Value, u32> {
    match i64::try_from(result) {
        Ok(integer) => Ok(Value::Integer(integer)),
        Err(_) => Err(refusal::OUT_OF_RANGE),
    }
}
