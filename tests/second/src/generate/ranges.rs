//! Routines without Loop, whose registers have ends where they start within limits: Conds most
//! of whose tests may be both, in each other and one behind another, around and within blocks
//! and functions. In some an operation is not safe; few have a Loop or near 1,000,000 steps.

use super::scope::{Meaning, Scope};
use super::steps::of_steps;
use super::well_typed::{Generator, Room, Temper};
use crate::build::*;
use crate::kinds::CODES;
use crate::node::Node;
use crate::tree::*;

/// The most nodes of such a routine.
const MOST_NODES: usize = 300;
/// The room of a declaration, of a value that is set, of an actual.
const DECLARATION: Room = Room { nodes: 12, levels: 8 };
const VALUE: Room = Room { nodes: 7, levels: 4 };
const ACTUAL: Room = Room { nodes: 3, levels: 3 };

enum Shape {
    Choice,
    Sequence,
    Block,
    Function,
    Set,
}

impl Generator<'_> {
    /// A root without Loop, but for one in sixteen.
    pub fn ranges(&mut self, scope: &Scope) -> Root {
        let registers = !scope.assignable().is_empty();
        let root = match self.random.below(16) {
            0 if registers => self.near_a_million(),
            0..=2 => self.root(scope, Room { nodes: 80, levels: 40 }),
            3 | 4 => Root::Command(self.functions(scope)),
            5 | 6 => Root::Command(self.choices(scope)),
            _ => Root::Command(self.open_choices(scope)),
        };
        match root {
            Root::Command(command) if self.random.chance(1, 16) => {
                Root::Command(self.with_a_loop(command))
            }
            root => root,
        }
    }

    /// Two commands of a Cond whose steps come to nearly 1,000,000 together, or to a little
    /// more; few, since each takes long.
    fn near_a_million(&mut self) -> Root {
        if !self.random.chance(1, 3) {
            return Root::Command(cond(lt(id(0), num(7)), of_steps(200), assign(0, num(3))));
        }
        // The Cond and its test have 6 steps.
        let first = self.random.between(200, 999_000) as u64;
        let second = 999_994 - first + self.random.below(5) as u64 - 2;
        Root::Command(cond(lt(id(0), num(7)), of_steps(first), of_steps(second)))
    }

    /// The command and a Loop, before it, behind it, or in a function that no one calls.
    fn with_a_loop(&mut self, command: Command) -> Command {
        let name = self.name(0);
        let count_down = assign(name, sub(id(name), num(1)));
        let looped = blk(bind_ref(name, num(2)), repeat(gt(id(name), num(0)), count_down));
        match self.random.below(3) {
            0 => cseq(looped, command),
            1 => cseq(command, looped),
            _ => cseq(
                command,
                blk(bind_abs(name, &[], block(bind(name, num(1)), looped.clone())), looped),
            ),
        }
    }

    /// Conds most of whose tests may be both. What has become too large is written again.
    fn open_choices(&mut self, scope: &Scope) -> Command {
        loop {
            let levels = self.random.between(2, 5);
            let command = self.open_command(scope, levels);
            if Node::from(&command).preorder().len() <= MOST_NODES {
                return command;
            }
        }
    }

    fn open_command(&mut self, scope: &Scope, levels: usize) -> Command {
        let all = [
            (5, Shape::Choice),
            (3, Shape::Sequence),
            (3, Shape::Block),
            (2, Shape::Function),
            (1, Shape::Set),
        ];
        let settable = !scope.assignable().is_empty();
        let shape = match self.random.weighted(&all) {
            // There must be something to set at the end.
            _ if !settable => &Shape::Block,
            _ if levels == 0 => &Shape::Set,
            shape => shape,
        };
        let below = levels.saturating_sub(1);
        match shape {
            Shape::Choice => {
                let test = self.open_test(scope);
                let first = self.open_command(scope, below);
                cond(test, first, self.open_command(scope, below))
            }
            Shape::Sequence => {
                let first = self.open_command(scope, below);
                cseq(first, self.open_command(scope, below))
            }
            Shape::Block => {
                let (declaration, declared) = self.open_declaration(scope);
                blk(declaration, self.open_command(&scope.with(&declared), below))
            }
            Shape::Function => self.open_function(scope, below),
            Shape::Set => self.setting(scope),
        }
    }

    /// A cell of a number or of a truth that may be both, and now and then more names.
    fn open_declaration(&mut self, scope: &Scope) -> (Declaration, Vec<(Name, Meaning)>) {
        let name = self.name(0);
        let code = self.random.below(2) as Code;
        let value =
            if code == 1 { self.open_test(scope) } else { self.expression(scope, 0, VALUE) };
        let declared = vec![(name, Meaning::Code(code + 2))];
        if self.random.chance(1, 2) {
            return (bind_ref(name, value), declared);
        }
        let inner = scope.with_earlier(&declared);
        let (second, more) = self.declaration(&inner, DECLARATION, 1 << name, 3);
        (dseq(bind_ref(name, value), second), declared.into_iter().chain(more).collect())
    }

    /// A function with Formals of any codes that can be made, called in both commands of a
    /// Cond or twice.
    fn open_function(&mut self, scope: &Scope, levels: usize) -> Command {
        let name = self.name(0);
        let mut formals: Vec<(Name, Code)> = Vec::new();
        for _ in 0..*self.random.pick(&[0, 1, 2, 2, 3, 8]) {
            let taken = formals.iter().fold(0, |taken, (formal, _)| taken | 1 << formal);
            formals.push((self.name(taken), self.code(scope, CODES - 1)));
        }
        let meanings: Vec<_> =
            formals.iter().map(|&(formal, code)| (formal, Meaning::Code(code))).collect();
        let inside = scope.with(&meanings);
        let (declaration, declared) = self.open_declaration(&inside);
        let body = block(declaration, self.open_command(&inside.with(&declared), levels));
        let codes: Vec<Code> = formals.iter().map(|(_, code)| *code).collect();
        let outside = scope.with(&[(name, Meaning::Function(codes.clone()))]);
        // The name may hide the only one of its code.
        if !outside.callable().iter().any(|(callable, _)| *callable == name) {
            return blk(bind_abs(name, &formals, body), self.open_command(&outside, levels));
        }
        let first = self.call(&outside, name, &codes, ACTUAL);
        let second = self.call(&outside, name, &codes, ACTUAL);
        let calls = match self.random.below(3) {
            0 => first,
            1 => cseq(first, second),
            _ => cond(self.open_test(&outside), first, second),
        };
        blk(bind_abs(name, &formals, body), calls)
    }

    /// A test that hangs on what names hold: a comparison with a number that registers come
    /// by, or of two names, a truth that a name holds, or two of these.
    fn open_test(&mut self, scope: &Scope) -> Expression {
        use Operator::*;
        let operator = *self.random.pick(&[Eq, Lt, Lt, Le, Gt, Gt, Ge]);
        match self.random.below(8) {
            0..=3 => {
                let limit = num(self.random.below(60) as u32);
                binary(operator, self.leaf(scope, 0), limit)
            }
            4 => binary(operator, self.leaf(scope, 0), self.leaf(scope, 0)),
            5 => self.leaf(scope, 1),
            6 => not(self.leaf(scope, 1)),
            _ => {
                let operator = *self.random.pick(&[And, Or, Eq]);
                let left = binary(Lt, self.leaf(scope, 0), num(self.random.below(60) as u32));
                binary(operator, left, self.leaf(scope, 1))
            }
        }
    }

    /// An Assign, or a Call where there is a function.
    fn setting(&mut self, scope: &Scope) -> Command {
        let callable = scope.callable();
        if !callable.is_empty() && self.random.chance(1, 3) {
            let (name, codes) = self.random.pick(&callable).clone();
            return self.call(scope, name, &codes, ACTUAL);
        }
        let (name, code) = *self.random.pick(&scope.assignable());
        if code == 1 && self.random.chance(1, 2) {
            return assign(name, self.open_test(scope));
        }
        assign(name, self.expression(scope, code, VALUE))
    }

    /// An operation on what names hold that may not be safe, as their ranges are.
    pub(super) fn risk(&mut self, scope: &Scope) -> Expression {
        use Operator::*;
        let operator = *self.random.pick(&[Div, Div, Div, Mul, Sum, Sub]);
        let left = self.leaf(scope, 0);
        binary(operator, left, self.leaf(scope, 0))
    }
}

impl Temper {
    /// Whether a tree of this temper has Loops.
    pub(super) fn has_loops(self) -> bool {
        !matches!(self, Temper::Straight | Temper::Risky)
    }

    /// Whether numbers stay small and divisors are not 0, but where a risk is taken.
    pub(super) fn is_calm(self) -> bool {
        matches!(self, Temper::Calm | Temper::Straight | Temper::Risky)
    }
}
