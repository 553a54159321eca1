//! Routines that divide, whatever the signs: quotients of registers, of small numbers and of
//! each other, stored, compared, handed to a function, and in loops that divide until nothing
//! changes.

use super::random::Random;
use super::scope::{Meaning, Scope};
use super::well_typed::Generator;
use crate::build::*;
use crate::tree::*;

/// Magnitudes at which a quotient may go wrong: small ones, and around 2^31, 2^32, 2^62 and
/// 2^63.
const MAGNITUDES: [u64; 22] = [
    0,
    1,
    1,
    2,
    2,
    3,
    5,
    7,
    8,
    9,
    10,
    100,
    (1 << 31) - 1,
    1 << 31,
    (1 << 32) - 1,
    1 << 32,
    (1 << 32) + 1,
    1 << 62,
    (1 << 63) - 2,
    (1 << 63) - 1,
    1 << 63,
    1 << 63,
];

/// A starting value of either sign: small, near an end of the integers, or anything.
pub(super) fn position(random: &mut Random) -> i64 {
    if random.chance(1, 8) {
        return random.word() as i64;
    }
    // 2^63 has no positive integer, and stands for the lowest one with either sign.
    let magnitude = *random.pick(&MAGNITUDES) as i64;
    if random.chance(1, 2) {
        magnitude
    } else {
        magnitude.wrapping_neg()
    }
}

/// What is done with quotients.
enum Use {
    Assign,
    Choice,
    Loop,
    Function,
    Block,
}

impl Generator<'_> {
    /// A root that divides: a quotient, or one to four commands over the registers, of which
    /// there is at least one.
    pub fn divisions(&mut self, scope: &Scope) -> Root {
        if self.random.chance(1, 4) {
            return Root::Expression(self.quotient(scope, 3));
        }
        let count = self.random.between(1, 4);
        let all = (0..count).map(|_| self.division_command(scope)).collect();
        Root::Command(commands(all))
    }

    fn division_command(&mut self, scope: &Scope) -> Command {
        use Use::*;
        let (name, _) = *self.random.pick(&scope.assignable());
        match self.random.weighted(&[
            (6, Assign),
            (2, Choice),
            (3, Loop),
            (2, Function),
            (1, Block),
        ]) {
            Assign => assign(name, self.quotient(scope, 3)),
            Choice => {
                let operator =
                    *self.random.pick(&[Operator::Eq, Operator::Lt, Operator::Le, Operator::Gt]);
                let test = binary(operator, self.quotient(scope, 2), self.operand(scope, 1));
                let first = assign(name, self.quotient(scope, 1));
                cond(test, first, assign(name, self.quotient(scope, 1)))
            }
            Loop => {
                let divisor = self.signed(2);
                let next = div(id(name), divisor);
                repeat(not(eq(id(name), next.clone())), assign(name, next))
            }
            Function => self.dividing_function(scope, name),
            Block => {
                let cell = self.name(1 << name);
                let value = self.quotient(scope, 2);
                let inner = scope.with(&[(cell, Meaning::Code(2))]);
                blk(bind_ref(cell, value), assign(name, self.quotient(&inner, 2)))
            }
        }
    }

    /// A function that divides its first Formal by its second, called once or twice.
    fn dividing_function(&mut self, scope: &Scope, set: Name) -> Command {
        let function = self.name(1 << set);
        let dividend = self.name(1 << set);
        let divisor = self.name(1 << set | 1 << dividend);
        let cell = self.name(1 << set);
        let body = block(bind_ref(cell, div(id(dividend), id(divisor))), assign(set, id(cell)));
        let inner = scope.with(&[(function, Meaning::Function(vec![0, 0]))]);
        let count = self.random.between(1, 2);
        let calls = (0..count)
            .map(|_| call(function, vec![self.operand(&inner, 1), self.operand(&inner, 1)]))
            .collect();
        blk(bind_abs(function, &[(dividend, 0), (divisor, 0)], body), commands(calls))
    }

    /// A Div. Most divisors are no quotients themselves, which would often be 0.
    fn quotient(&mut self, scope: &Scope, levels: usize) -> Expression {
        let dividend = self.operand(scope, levels);
        let divisor = match self.random.below(8) {
            0..=2 => self.signed(1),
            3 | 4 => self.operand(scope, 0),
            _ => self.operand(scope, levels),
        };
        div(dividend, divisor)
    }

    /// A number to divide or to divide by, with so many levels of operators at most.
    fn operand(&mut self, scope: &Scope, levels: usize) -> Expression {
        let among = if levels == 0 { 8 } else { 14 };
        match self.random.below(among) {
            0..=4 => {
                let numbers: Vec<Name> = scope.assignable().iter().map(|(name, _)| *name).collect();
                id(*self.random.pick(&numbers))
            }
            5..=6 => self.signed(1),
            7 => self.signed(0),
            8..=11 => self.quotient(scope, levels - 1),
            _ => {
                let operator = *self.random.pick(&[
                    Operator::Sum,
                    Operator::Sub,
                    Operator::Sub,
                    Operator::Mul,
                ]);
                let left = self.operand(scope, levels - 1);
                binary(operator, left, self.signed(0))
            }
        }
    }

    /// A small number of either sign, not nearer to 0 than this.
    fn signed(&mut self, least: usize) -> Expression {
        let number = num(self.random.between(least, 9) as u32);
        if self.random.chance(1, 2) {
            number
        } else {
            sub(num(0), number)
        }
    }
}
