//! Well-typed trees of every kind: nested blocks, functions with Formals of all
//! codes, aliases, loops that end and loops that do not.
//!
//! A tree is written downwards with a room: the nodes and the levels it may
//! still take. Whoever hands a room on leaves at least the least room there. What
//! a Blk declares is in `declarations.rs`, what a Cond chooses in `choices.rs`.

use super::choices::LEAST_CHOICE;
use super::random::Random;
use super::scope::{Meaning, Scope};
use crate::build::*;
use crate::kinds::{MOST_COUNT, NAMES};
use crate::tree::*;

/// The nodes and levels a subtree may take.
#[derive(Clone, Copy, Debug)]
pub struct Room {
    pub nodes: usize,
    pub levels: usize,
}

impl Room {
    /// The room below a node, for one of its children.
    pub(super) fn below(self, nodes: usize) -> Room {
        Room { nodes, levels: self.levels - 1 }
    }

    pub(super) fn holds(self, least: Room) -> bool {
        self.nodes >= least.nodes && self.levels >= least.levels
    }
}

const fn room(nodes: usize, levels: usize) -> Room {
    Room { nodes, levels }
}

/// Blk(Bind(x, Ref(leaf)), Assign(x, leaf)) can always be written.
pub const LEAST_COMMAND: Room = room(6, 4);
pub(super) const LEAST_DECLARATION: Room = room(2, 2);
pub(super) const LEAST_BLOCK: Room = room(1 + 2 + 6, 5);
/// The nodes a counted loop needs around its body.
const COUNTED: usize = 13;
/// The nodes that cells of all three levels need around the rest.
const LEVELS: usize = 12;
/// The most names one declaration binds.
const MOST_NAMES: usize = 40;

enum Shape {
    Assign,
    Call,
    Sequence,
    Loop,
    CountedLoop,
    Block,
    Levels,
    Cond,
}

/// How readily a tree runs into 31 and 32.
#[derive(Clone, Copy, Debug, PartialEq, Eq)]
pub enum Temper {
    /// Numbers stay small and divisors are not 0: most runs go on for long.
    Calm,
    /// Any numbers and divisors.
    Wild,
    /// Faults stand in many places, so that the first one met tells in which
    /// order things run.
    Faulty,
    /// Calm, and without Loops.
    Straight,
    /// The same, with operations here and there that hang on what names hold.
    Risky,
}

pub struct Generator<'r> {
    pub random: &'r mut Random,
    pub temper: Temper,
}

impl Generator<'_> {
    /// A root: a command, or now and then an expression.
    pub fn root(&mut self, scope: &Scope, room: Room) -> Root {
        if self.random.chance(1, 8) {
            let code = self.code(scope, 2);
            Root::Expression(self.expression(scope, code, room))
        } else {
            Root::Command(self.command(scope, room))
        }
    }

    /// An expression of a code that the scope can make.
    pub fn expression(&mut self, scope: &Scope, code: Code, room: Room) -> Expression {
        let grow =
            room.nodes >= 3 && room.levels >= 2 && self.random.chance(room.nodes, 4 + room.nodes);
        if code >= 2 || !grow {
            return self.leaf(scope, code);
        }
        if code == 0 && self.temper == Temper::Faulty && self.random.chance(1, 6) {
            return self.fault();
        }
        if code == 0 && self.temper == Temper::Risky && self.random.chance(1, 3) {
            return self.risk(scope);
        }
        if code == 1 && self.random.chance(1, 5) {
            return not(self.expression(scope, 1, room.below(room.nodes - 1)));
        }
        let left = self.random.between(1, room.nodes - 2);
        let (left, right) = (room.below(left), room.below(room.nodes - 1 - left));
        let (operator, operands) = self.operator(code);
        let first = self.expression(scope, operands, left);
        let second = match operator {
            Operator::Div if self.temper.is_calm() || self.random.chance(1, 2) => {
                self.divisor(right)
            }
            Operator::Mul if self.temper.is_calm() => num(self.random.below(3) as u32),
            _ => self.expression(scope, operands, right),
        };
        binary(operator, first, second)
    }

    /// A divisor that is not 0: 1 to 9, or where the room holds a difference as often -1 to -9.
    fn divisor(&mut self, room: Room) -> Expression {
        let number = num(self.random.between(1, 9) as u32);
        if room.nodes >= 3 && room.levels >= 2 && self.random.chance(1, 2) {
            sub(num(0), number)
        } else {
            number
        }
    }

    /// An operator with this result, and the code of both operands.
    fn operator(&mut self, result: Code) -> (Operator, Code) {
        use Operator::*;
        if result == 0 {
            (*self.random.weighted(&[(4, Sum), (4, Sub), (2, Mul), (2, Div)]), 0)
        } else {
            *self.random.pick(&[
                (Eq, 0),
                (Eq, 1),
                (Lt, 0),
                (Le, 0),
                (Gt, 0),
                (Ge, 0),
                (And, 1),
                (Or, 1),
            ])
        }
    }

    /// An integer expression that is withheld for 31, or for 32.
    pub(super) fn fault(&mut self) -> Expression {
        let zero_divisor = div(num(1), num(0));
        let out_of_range = mul(num(u32::MAX), num(u32::MAX));
        if self.random.chance(1, 2) {
            zero_divisor
        } else {
            out_of_range
        }
    }

    pub(super) fn leaf(&mut self, scope: &Scope, code: Code) -> Expression {
        let mut choices = Vec::new();
        for (name, named) in scope.codes() {
            if named == code + 2 || (named < 2 && named == code) {
                choices.push((name, id(name)));
            }
            if named >= 2 && named == code {
                choices.push((name, deref(name)));
            }
            if named == code + 4 {
                choices.push((name, valref(name)));
            }
        }
        if code == 0 {
            choices.extend(scope.counters().into_iter().map(|name| (name, id(name))));
        }
        if code < 2 && (choices.is_empty() || self.random.chance(1, 3)) {
            return self.constant(code);
        }
        self.pick_named(scope, choices).1
    }

    /// One of these, each with its name: as often as not one that the first
    /// declaration of a DSeq gives to the second, where there is one.
    fn pick_named<T: Clone>(&mut self, scope: &Scope, choices: Vec<(Name, T)>) -> (Name, T) {
        let earlier: Vec<(Name, T)> =
            choices.iter().filter(|(name, _)| scope.is_earlier(*name)).cloned().collect();
        let among = if !earlier.is_empty() && self.random.chance(1, 2) { earlier } else { choices };
        self.random.pick(&among).clone()
    }

    fn constant(&mut self, code: Code) -> Expression {
        if code == 1 {
            return boo(self.random.chance(1, 2));
        }
        let most = if self.temper.is_calm() { 6 } else { 10 };
        num([0, 1, 2, 3, 5, 7, 10, 1000, 1 << 31, u32::MAX][self.random.below(most)])
    }

    /// A code up to `most` that the scope can make: a plain one in half of the
    /// cases, else any.
    pub(super) fn code(&mut self, scope: &Scope, most: Code) -> Code {
        if self.random.chance(1, 2) {
            return self.random.below(2) as Code;
        }
        let codes: Vec<Code> = (0..=most).filter(|code| scope.can_make(*code)).collect();
        *self.random.pick(&codes)
    }

    /// A command. The room is at least `LEAST_COMMAND`.
    pub fn command(&mut self, scope: &Scope, room: Room) -> Command {
        let fitting = self.fitting(scope, room);
        if fitting.is_empty() {
            return self.least_command(scope);
        }
        match self.random.weighted(&fitting) {
            Shape::Assign => {
                let (name, code) = self.pick_named(scope, scope.assignable());
                let nodes = (room.nodes - 1).min(40);
                assign(name, self.expression(scope, code, room.below(nodes)))
            }
            Shape::Call => {
                let (name, formals) = self.pick_named(scope, scope.callable());
                let spare = room.nodes - 1 - formals.len();
                let each = room.below(1 + spare.min(40) / formals.len().max(1));
                self.call(scope, name, &formals, each)
            }
            Shape::Sequence => {
                let (least, most) = (LEAST_COMMAND.nodes, room.nodes - 1 - LEAST_COMMAND.nodes);
                let first = self.random.between(least, most);
                let (first, second) = (room.below(first), room.below(room.nodes - 1 - first));
                cseq(self.command(scope, first), self.command(scope, second))
            }
            Shape::Loop => {
                let most = (room.nodes - 1 - LEAST_COMMAND.nodes).min(20);
                let test = self.random.between(1, most);
                let command = room.below(room.nodes - 1 - test);
                repeat(self.test(scope, room.below(test)), self.command(scope, command))
            }
            Shape::CountedLoop => {
                let body = Room { nodes: room.nodes - COUNTED, levels: room.levels - 3 };
                self.counted_loop(scope, |generator, inner| generator.command(inner, body))
            }
            Shape::Block => Command::Blk(self.block(scope, room)),
            Shape::Levels => self.levels(scope, room),
            Shape::Cond => self.choice(scope, room),
        }
    }

    /// What fits the room, with weights: larger rooms go to what fills them.
    fn fitting(&mut self, scope: &Scope, room: Room) -> Vec<(usize, Shape)> {
        let large = room.nodes > 40 && room.levels > 8;
        let mut fitting = Vec::new();
        if !scope.assignable().is_empty() && !large {
            fitting.push((6, Shape::Assign));
        }
        let callable = scope.callable();
        if room.nodes > MOST_COUNT as usize && !callable.is_empty() && !large {
            let earlier = callable.iter().any(|(name, _)| scope.is_earlier(*name));
            fitting.push((if earlier { 32 } else { 10 }, Shape::Call));
        }
        if room.nodes > 2 * LEAST_COMMAND.nodes && room.levels > LEAST_COMMAND.levels {
            fitting.push((if large { 8 } else { 3 }, Shape::Sequence));
        }
        let loops = self.temper.has_loops() && room.levels > LEAST_COMMAND.levels;
        if loops && room.nodes >= 2 + LEAST_COMMAND.nodes {
            fitting.push((1, Shape::Loop));
        }
        if loops
            && room.nodes >= COUNTED + LEAST_COMMAND.nodes
            && room.levels >= 3 + LEAST_COMMAND.levels
        {
            fitting.push((2, Shape::CountedLoop));
        }
        if room.holds(LEAST_BLOCK) {
            fitting.push((if large { 8 } else { 4 }, Shape::Block));
        }
        if room.nodes >= LEVELS + LEAST_BLOCK.nodes && room.levels >= 3 + LEAST_BLOCK.levels {
            fitting.push((2, Shape::Levels));
        }
        if room.holds(LEAST_CHOICE) {
            fitting.push((if large { 5 } else { 3 }, Shape::Cond));
        }
        fitting
    }

    fn least_command(&mut self, scope: &Scope) -> Command {
        let name = self.name(0);
        let code = self.random.below(2) as Code;
        let first = self.leaf(scope, code);
        let inner = scope.with(&[(name, Meaning::Code(code + 2))]);
        blk(bind_ref(name, first), assign(name, self.leaf(&inner, code)))
    }

    /// A Call with an actual for each of these codes, in so much room each.
    pub(super) fn call(
        &mut self,
        scope: &Scope,
        name: Name,
        formals: &[Code],
        each: Room,
    ) -> Command {
        let actuals = formals.iter().map(|code| self.expression(scope, *code, each)).collect();
        call(name, actuals)
    }

    fn test(&mut self, scope: &Scope, room: Room) -> Expression {
        match self.random.below(8) {
            0 => boo(true),
            1 | 2 => boo(false),
            _ => self.expression(scope, 1, room),
        }
    }

    /// A loop that ends: a fresh cell counts down, and its body cannot set it.
    pub(super) fn counted_loop(
        &mut self,
        scope: &Scope,
        body: impl FnOnce(&mut Self, &Scope) -> Command,
    ) -> Command {
        let counter = self.name(0);
        let inner = scope.with(&[(counter, Meaning::Counter)]);
        let rounds = self.random.below(6) as u32;
        let body = body(self, &inner);
        let count_down = assign(counter, sub(id(counter), num(1)));
        blk(bind_ref(counter, num(rounds)), repeat(gt(id(counter), num(0)), cseq(body, count_down)))
    }

    /// A cell, a cell of its location and a cell of that one's, around a Blk.
    fn levels(&mut self, scope: &Scope, room: Room) -> Command {
        let base = self.random.below(2) as Code;
        let first = self.name(0);
        let second = self.name(1 << first);
        let third = self.name(1 << first | 1 << second);
        let value = self.leaf(scope, base);
        let inner = scope.with(&[
            (first, Meaning::Code(base + 2)),
            (second, Meaning::Code(base + 4)),
            (third, Meaning::Code(base + 6)),
        ]);
        let rest = Room { nodes: room.nodes - LEVELS, levels: room.levels - 3 };
        let rest = Command::Blk(self.block(&inner, rest));
        blk(
            bind_ref(first, value),
            blk(bind_ref(second, deref(first)), blk(bind_ref(third, deref(second)), rest)),
        )
    }

    /// A Blk. The room is at least `LEAST_BLOCK`.
    pub(super) fn block(&mut self, scope: &Scope, room: Room) -> Blk {
        let most = room.nodes - 1 - LEAST_COMMAND.nodes;
        let nodes = self.random.between(LEAST_DECLARATION.nodes, most);
        let (declaration, declared) = self.declaration(scope, room.below(nodes), 0, MOST_NAMES);
        let command = room.below(room.nodes - 1 - nodes);
        block(declaration, self.command(&scope.with(&declared), command))
    }

    /// A name that is not taken; often a low one, so that names hide others.
    pub(super) fn name(&mut self, taken: u64) -> Name {
        loop {
            let among = if self.random.chance(1, 3) { 6 } else { NAMES as usize };
            let name = self.random.below(among);
            if taken & (1 << name) == 0 {
                return name as Name;
            }
        }
    }
}
