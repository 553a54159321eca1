//! Choices of well-typed trees: Conds whose tests hang on what names hold, one in the
//! other, in blocks, in rounds of loops and in functions.

use super::scope::{Meaning, Scope};
use super::well_typed::{Generator, Room, Temper, LEAST_COMMAND};
use crate::build::*;
use crate::node::Node;
use crate::tree::*;

/// The least room for a Cond: itself, a leaf and two commands.
pub(super) const LEAST_CHOICE: Room =
    Room { nodes: 2 + 2 * LEAST_COMMAND.nodes, levels: 1 + LEAST_COMMAND.levels };
/// The nodes that a fault takes before a command: Blk, Bind and an operation.
const FAULT: usize = 5;
const LEAST_WITH_A_FAULT: Room =
    Room { nodes: FAULT + LEAST_COMMAND.nodes, levels: 1 + LEAST_COMMAND.levels };
/// The most nodes of a tree full of Conds.
const MOST_NODES: usize = 250;

/// Where Conds of a tree full of them stand.
enum Setting {
    /// One in the second command of another, as "else if".
    Chain,
    Block,
    Rounds,
    Function,
    /// One after another.
    Sequence,
}

impl Generator<'_> {
    /// A Cond. The room is at least `LEAST_CHOICE`.
    pub(super) fn choice(&mut self, scope: &Scope, room: Room) -> Command {
        let most = (room.nodes - 1 - 2 * LEAST_COMMAND.nodes).min(20);
        let test = self.random.between(1, most);
        let both = room.nodes - 1 - test;
        let first = self.random.between(LEAST_COMMAND.nodes, both - LEAST_COMMAND.nodes);
        let test = self.decision(scope, room.below(test));
        // In a faulty tree as often as not one command starts with a fault and the
        // other does not: what the run comes to tells which one is taken.
        let at_fault = match self.temper {
            Temper::Faulty if self.random.chance(1, 2) => Some(self.random.below(2)),
            _ => None,
        };
        let second = room.below(both - first);
        let first = self.starting(scope, room.below(first), at_fault == Some(0));
        cond(test, first, self.starting(scope, second, at_fault == Some(1)))
    }

    /// A command; with a fault of arithmetic before it, if that is wanted and the room
    /// holds both.
    fn starting(&mut self, scope: &Scope, room: Room, with_a_fault: bool) -> Command {
        if !with_a_fault || !room.holds(LEAST_WITH_A_FAULT) {
            return self.command(scope, room);
        }
        let name = self.name(0);
        let fault = self.fault();
        let inner = scope.with(&[(name, Meaning::Code(0))]);
        blk(bind(name, fault), self.command(&inner, room.below(room.nodes - FAULT)))
    }

    /// A Cond's test: now and then a truth, mostly a comparison of what names hold; in
    /// rounds of a loop often of what counts them.
    fn decision(&mut self, scope: &Scope, room: Room) -> Expression {
        use Operator::*;
        let operator = *self.random.pick(&[Eq, Lt, Le, Gt, Ge]);
        let compares = room.nodes >= 3 && room.levels >= 2;
        let counters = scope.counters();
        match self.random.below(8) {
            0 => boo(true),
            1 => boo(false),
            2..=4 if compares && !counters.is_empty() => {
                let limit = num(self.random.below(5) as u32);
                binary(operator, id(*self.random.pick(&counters)), limit)
            }
            2..=5 if compares => binary(operator, self.leaf(scope, 0), self.leaf(scope, 0)),
            _ => self.expression(scope, 1, room),
        }
    }

    /// A tree full of Conds: two or three settings within each other and small commands
    /// at their ends. What has become too large, or has no Cond, is written again.
    pub fn choices(&mut self, scope: &Scope) -> Command {
        loop {
            let settings = self.random.between(2, 3);
            let command = self.choices_within(scope, settings);
            let nodes = Node::from(&command).preorder();
            let chooses = nodes.iter().any(|(node, _)| matches!(node, Node::Cond(_)));
            if chooses && nodes.len() <= MOST_NODES {
                return command;
            }
        }
    }

    fn choices_within(&mut self, scope: &Scope, settings: usize) -> Command {
        use Setting::*;
        if settings == 0 {
            let nodes = *self.random.pick(&[LEAST_COMMAND.nodes, 10, LEAST_CHOICE.nodes, 30]);
            return self.command(scope, Room { nodes, levels: 10 });
        }
        let all = [(5, Chain), (2, Block), (5, Rounds), (4, Function), (3, Sequence)];
        match self.random.weighted(&all) {
            Chain => self.chain(scope, settings),
            Block => {
                let room = Room { nodes: 12, levels: 10 };
                let (declaration, declared) = self.declaration(scope, room, 0, 3);
                blk(declaration, self.choices_within(&scope.with(&declared), settings - 1))
            }
            Rounds if !self.temper.has_loops() => self.chain(scope, settings),
            Rounds => self.counted_loop(scope, |generator, inner| generator.chain(inner, settings)),
            Function => self.choosing_function(scope, settings),
            Sequence => {
                let first = self.choices_within(scope, settings - 1);
                cseq(first, self.choices_within(scope, settings - 1))
            }
        }
    }

    /// One to four Conds, each in the second command of the one before it or, now and
    /// then, in its first.
    fn chain(&mut self, scope: &Scope, settings: usize) -> Command {
        let mut command = self.choices_within(scope, settings - 1);
        for _ in 0..self.random.between(1, 4) {
            let test = self.decision(scope, Room { nodes: 7, levels: 4 });
            let settings = self.random.below(settings);
            let other = self.choices_within(scope, settings);
            command = if self.random.chance(3, 4) {
                cond(test, other, command)
            } else {
                cond(test, command, other)
            };
        }
        command
    }

    /// A function whose Blk chooses by its Formals, called some times, mostly with
    /// actuals that a Cond chooses.
    fn choosing_function(&mut self, scope: &Scope, settings: usize) -> Command {
        let name = self.name(0);
        let count = self.random.between(1, 3);
        let mut formals: Vec<(Name, Code)> = Vec::new();
        for _ in 0..count {
            let taken = formals.iter().fold(1 << name, |taken, (formal, _)| taken | 1 << formal);
            formals.push((self.name(taken), *self.random.pick(&[0, 0, 1])));
        }
        let meanings: Vec<_> =
            formals.iter().map(|&(formal, code)| (formal, Meaning::Code(code))).collect();
        let room = Room { nodes: 6, levels: 5 };
        let inside = scope.with(&meanings);
        let (declaration, declared) = self.declaration(&inside, room, 0, 1);
        let body = block(declaration, self.chain(&inside.with(&declared), settings));
        let codes: Vec<Code> = formals.iter().map(|(_, code)| *code).collect();
        let outside = scope.with(&[(name, Meaning::Function(codes.clone()))]);
        let room = Room { nodes: 3, levels: 3 };
        let mut calls = Vec::new();
        for _ in 0..self.random.between(1, 3) {
            let first = self.call(&outside, name, &codes, room);
            calls.push(if self.random.chance(3, 4) {
                let test = self.decision(&outside, room);
                cond(test, first, self.call(&outside, name, &codes, room))
            } else {
                first
            });
        }
        blk(bind_abs(name, &formals, body), commands(calls))
    }
}

/// So many Conds, each the second command of the one around it. The first command of
/// the n-th is taken if register 0 is n, and sets it to 100 more; if none is, it
/// becomes 0.
pub fn else_if(count: u32) -> Command {
    let tested = |number| eq(id(0), num(number));
    (1..=count).rev().fold(assign(0, num(0)), |otherwise, number| {
        cond(tested(number), assign(0, num(100 + number)), otherwise)
    })
}
