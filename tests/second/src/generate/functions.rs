//! Functions of well-typed trees that call functions: with several actuals, in Conds whose
//! commands need now this and now that, in blocks within each other, twice and twice again;
//! and functions that no one calls, some with a Loop.

use super::scope::{Meaning, Scope};
use super::well_typed::{Generator, Room};
use crate::build::*;
use crate::node::Node;
use crate::tree::*;

/// The most nodes of a tree full of functions.
const MOST_NODES: usize = 300;
/// The room of a small command, of a declaration, of an actual or a test.
const COMMAND: Room = Room { nodes: 7, levels: 8 };
const DECLARATION: Room = Room { nodes: 5, levels: 5 };
const EXPRESSION: Room = Room { nodes: 7, levels: 4 };

/// What commands may hold, and how many levels of them.
#[derive(Clone, Copy)]
struct Tasks {
    levels: usize,
    choices: bool,
    loops: bool,
}

enum Task {
    Call,
    Sequence,
    Choice,
    Block,
    Loop,
    Small,
}

/// What a command needs much of.
#[derive(Clone, Copy, PartialEq, Eq)]
enum Much {
    /// Entries of both stacks.
    Entries,
    /// Cells and bindings.
    Names,
    Steps,
}

impl Generator<'_> {
    /// A tree full of functions, now and then one whose steps double with each. What has
    /// become too large is written again.
    pub fn functions(&mut self, scope: &Scope) -> Command {
        loop {
            let command = if self.random.chance(1, 16) {
                self.doubling(scope)
            } else {
                let count = self.random.between(2, 5);
                // Without Loops the steps are a figure, without Conds too there is one run.
                let (choices, loops) = (self.random.chance(2, 3), self.random.chance(1, 6));
                let loops = loops && self.temper.has_loops();
                self.within_functions(scope, count, Tasks { levels: 2, choices, loops })
            };
            if Node::from(&command).preorder().len() <= MOST_NODES {
                return command;
            }
        }
    }

    /// So many functions, each declared in the Blk of the one before it, now and then with
    /// other declarations, and a command within all of them.
    fn within_functions(&mut self, scope: &Scope, count: usize, tasks: Tasks) -> Command {
        if count == 0 {
            return cseq(self.task(scope, tasks), self.task(scope, tasks));
        }
        let name = self.function_name(scope);
        // An idle function is known to no one, so that no one calls it.
        let idle = self.random.chance(1, 4);
        let (mut declaration, meaning) = self.function_of_tasks(scope, name, idle, tasks);
        let mut inside = if idle { scope.without(name) } else { scope.with(&[(name, meaning)]) };
        if self.random.chance(1, 3) {
            let (second, more) = self.declaration(&inside, DECLARATION, 1 << name, 3);
            declaration = dseq(declaration, second);
            inside = inside.with(&more);
        }
        blk(declaration, self.within_functions(&inside, count - 1, tasks))
    }

    /// A name for a function: any, now and then one that hides another function.
    fn function_name(&mut self, scope: &Scope) -> Name {
        let functions = scope.callable();
        if !functions.is_empty() && self.random.chance(1, 6) {
            return self.random.pick(&functions).0;
        }
        self.name(0)
    }

    /// A function whose Blk has tasks, with up to 8 Formals; an idle one has a Loop now
    /// and then.
    fn function_of_tasks(
        &mut self,
        scope: &Scope,
        name: Name,
        idle: bool,
        tasks: Tasks,
    ) -> (Declaration, Meaning) {
        let mut formals: Vec<(Name, Code)> = Vec::new();
        for _ in 0..*self.random.pick(&[0, 1, 2, 2, 3, 3, 4, 8]) {
            let taken = formals.iter().fold(0, |taken, (formal, _)| taken | 1 << formal);
            let callable = scope.callable();
            // Now and then a Formal hides a function in this one's Blk.
            let formal = match callable.first() {
                Some((function, _)) if taken & 1 << function == 0 && self.random.chance(1, 12) => {
                    *function
                }
                _ => self.name(taken),
            };
            formals.push((formal, self.code(scope, 3)));
        }
        let meanings: Vec<_> =
            formals.iter().map(|&(formal, code)| (formal, Meaning::Code(code))).collect();
        let inside = scope.with(&meanings);
        let (declaration, declared) = self.declaration(&inside, DECLARATION, 0, 2);
        let inside = inside.with(&declared);
        let mut command = self.task(&inside, tasks);
        if idle && self.random.chance(1, 3) && self.temper.has_loops() {
            command = repeat(self.expression(&inside, 1, EXPRESSION), command);
        }
        let codes = formals.iter().map(|(_, code)| *code).collect();
        (bind_abs(name, &formals, block(declaration, command)), Meaning::Function(codes))
    }

    /// A command of tasks, as often as not a Call.
    fn task(&mut self, scope: &Scope, tasks: Tasks) -> Command {
        let callable = scope.callable();
        let mut all = vec![(1, Task::Small)];
        if !callable.is_empty() {
            all.push((8, Task::Call));
        }
        if tasks.levels > 0 {
            all.extend([(4, Task::Sequence), (3, Task::Block)]);
            all.extend(tasks.choices.then_some((4, Task::Choice)));
            all.extend(tasks.loops.then_some((2, Task::Loop)));
        }
        let below = Tasks { levels: tasks.levels.saturating_sub(1), ..tasks };
        match self.random.weighted(&all) {
            Task::Call => {
                let (name, codes) = self.random.pick(&callable).clone();
                self.call(scope, name, &codes, EXPRESSION)
            }
            Task::Sequence => cseq(self.task(scope, below), self.task(scope, below)),
            Task::Choice => self.unequal_choice(scope, below),
            Task::Block => {
                let (declaration, declared) = self.declaration(scope, DECLARATION, 0, 3);
                blk(declaration, self.task(&scope.with(&declared), below))
            }
            Task::Loop => repeat(self.expression(scope, 1, EXPRESSION), self.task(scope, below)),
            Task::Small => self.command(scope, COMMAND),
        }
    }

    /// A Cond of two tasks, as often as not with commands before them that need much of
    /// different things.
    fn unequal_choice(&mut self, scope: &Scope, tasks: Tasks) -> Command {
        let test = self.expression(scope, 1, EXPRESSION);
        let (first, second) = (self.task(scope, tasks), self.task(scope, tasks));
        if self.random.chance(1, 2) {
            return cond(test, first, second);
        }
        let all = [Much::Entries, Much::Names, Much::Steps];
        let one = *self.random.pick(&all);
        let others: Vec<Much> = all.into_iter().filter(|other| *other != one).collect();
        let other = *self.random.pick(&others);
        let (one, other) = (self.much(scope, one), self.much(scope, other));
        cond(test, cseq(one, first), cseq(second, other))
    }

    /// A command that needs much of this.
    fn much(&mut self, scope: &Scope, of: Much) -> Command {
        let name = self.name(0);
        let high = self.random.between(3, 8);
        let small = self.command(scope, COMMAND);
        match of {
            Much::Entries => {
                let to_the_left = self.random.chance(1, 2);
                let nest = (0..high).fold(num(1), |inner, _| match to_the_left {
                    true => sum(inner, num(1)),
                    false => sum(num(1), inner),
                });
                cseq(blk(bind_ref(name, nest), assign(name, num(0))), small)
            }
            Much::Names => {
                let names = (0..high as Name).map(|index| (name + index) % 64);
                let cells = names.map(|name| bind_ref(name, num(2))).collect();
                cseq(blk(declarations(cells), assign(name, num(0))), small)
            }
            Much::Steps => (0..high / 2).fold(small.clone(), |all, _| cseq(all, small.clone())),
        }
    }

    /// Functions each of which calls the one before it twice, so that the steps come near
    /// 1,000,000 or above, now and then above every word of 32 bits; or fewer of them with a
    /// Loop in one that no one calls.
    fn doubling(&mut self, scope: &Scope) -> Command {
        let (count, with_a_loop) = match self.random.below(12) {
            0 | 1 => (self.random.between(12, 16), self.temper.has_loops()),
            2 => (self.random.between(28, 34), false),
            _ => (self.random.between(12, 19), false),
        };
        let first = self.name(0);
        let (declaration, declared) = self.declaration(scope, DECLARATION, 0, 2);
        let body = block(declaration, self.command(&scope.with(&declared), COMMAND));
        let mut functions = vec![(first, bind_abs(first, &[], body))];
        for _ in 1..count {
            let taken = functions.iter().fold(0, |taken, (name, _)| taken | 1 << name);
            let (name, before) = (self.name(taken), functions[functions.len() - 1].0);
            let once = || call(before, vec![]);
            let command = match self.random.below(40) {
                0 => cond(boo(true), once(), cseq(once(), once())),
                1..=4 => cseq(once(), cseq(once(), once())),
                5..=8 => once(),
                _ => cseq(once(), once()),
            };
            let local = self.name(taken | 1 << name);
            functions.push((name, bind_abs(name, &[], block(bind(local, num(1)), command))));
        }
        let mut command = call(functions[count - 1].0, vec![]);
        if with_a_loop {
            let name = self.name(0);
            let names = functions.iter().map(|(name, _)| *name).chain([name]);
            let inside = names.fold(scope.clone(), |scope, name| scope.without(name));
            let round = repeat(boo(true), self.command(&inside, COMMAND));
            let idle = bind_abs(name, &[], block(bind(name, num(1)), round));
            command = cseq(command, blk(idle, self.command(&inside, COMMAND)));
        }
        if self.random.chance(1, 2) {
            return blk(declarations(functions.into_iter().map(|(_, it)| it).collect()), command);
        }
        functions.into_iter().rev().fold(command, |command, (_, function)| blk(function, command))
    }
}
