//! Declarations of well-typed trees: plain values, cells, functions, and DSeqs
//! whose second declaration uses what the first one declares.

use super::random::Random;
use super::scope::{Meaning, Scope};
use super::well_typed::{Generator, Room, LEAST_BLOCK, LEAST_DECLARATION};
use crate::build::*;
use crate::kinds::{CODES, MOST_COUNT};
use crate::tree::*;

enum Binding {
    Plain,
    Cell,
    Function,
    Sequence,
}

impl Generator<'_> {
    /// A Blk with two to six declarations under DSeqs of any shape, each of which
    /// uses what was declared before it, and a command that uses them all; as often as
    /// not a command behind it, where the names mean again what they meant before.
    pub fn sequences(&mut self, scope: &Scope) -> Command {
        let mut all = Vec::new();
        let mut declared: Vec<(Name, Meaning)> = Vec::new();
        for _ in 0..self.random.between(2, 6) {
            let room = |nodes| Room { nodes, levels: 20 };
            let taken = declared.iter().fold(0, |taken, (name, _)| taken | 1 << name);
            let scope = scope.with_earlier(&declared);
            let (declaration, more) = if self.random.chance(2, 5) {
                let name = self.name(taken);
                self.function(&scope, room(30), name)
            } else {
                let nodes = *self.random.pick(&[3, 5, 10, 20]);
                self.declaration(&scope, room(nodes), taken, 3)
            };
            all.push(declaration);
            declared.extend(more);
        }
        let declaration = joined(self.random, all);
        // The command uses these names as often as a later declaration does.
        let inside = scope.with_earlier(&declared);
        let block = blk(declaration, self.command(&inside, Room { nodes: 40, levels: 20 }));
        if self.random.chance(1, 2) {
            return block;
        }
        cseq(block, self.command(scope, Room { nodes: 20, levels: 20 }))
    }

    /// A declaration of at most `names` names, none of them taken, and what it
    /// declares. The room is at least `LEAST_DECLARATION`.
    pub(super) fn declaration(
        &mut self,
        scope: &Scope,
        room: Room,
        taken: u64,
        names: usize,
    ) -> (Declaration, Vec<(Name, Meaning)>) {
        let mut choices = Vec::new();
        if room.nodes >= 2 + LEAST_BLOCK.nodes && room.levels >= 2 + LEAST_BLOCK.levels {
            choices.push((6, Binding::Function));
        }
        if room.nodes > 2 * LEAST_DECLARATION.nodes && room.levels >= 3 && names >= 2 {
            choices.push((5, Binding::Sequence));
        }
        // A plain value or a cell would leave most of a large room empty.
        if room.nodes <= 40 || choices.is_empty() {
            choices.push((3, Binding::Plain));
            if room.nodes >= 3 && room.levels >= 3 {
                choices.push((5, Binding::Cell));
            }
        }
        let name = self.name(taken);
        match self.random.weighted(&choices) {
            Binding::Plain => {
                let code = self.code(scope, CODES - 1);
                let value = self.expression(scope, code, room.below((room.nodes - 1).min(20)));
                (bind(name, value), vec![(name, Meaning::Code(code))])
            }
            Binding::Cell => {
                let code = self.code(scope, 5);
                let room = Room { nodes: (room.nodes - 2).min(20), levels: room.levels - 2 };
                let value = self.expression(scope, code, room);
                (bind_ref(name, value), vec![(name, Meaning::Code(code + 2))])
            }
            Binding::Function => self.function(scope, room, name),
            Binding::Sequence => {
                let (least, most) =
                    (LEAST_DECLARATION.nodes, room.nodes - 1 - LEAST_DECLARATION.nodes);
                let nodes = self.random.between(least, most);
                let (first, mut declared) =
                    self.declaration(scope, room.below(nodes), taken, names / 2);
                let taken = declared.iter().fold(taken, |taken, (name, _)| taken | 1 << name);
                // The second declaration sees what the first declares.
                let rest = room.below(room.nodes - 1 - nodes);
                let scope = scope.with_earlier(&declared);
                let (second, more) = self.declaration(&scope, rest, taken, names - names / 2);
                declared.extend(more);
                (dseq(first, second), declared)
            }
        }
    }

    fn function(
        &mut self,
        scope: &Scope,
        room: Room,
        name: Name,
    ) -> (Declaration, Vec<(Name, Meaning)>) {
        let most = (room.nodes - 2 - LEAST_BLOCK.nodes).min(MOST_COUNT as usize);
        let count = self.random.between(0, most);
        let mut taken = 0;
        let mut formals = Vec::new();
        for _ in 0..count {
            let formal = self.name(taken);
            taken |= 1 << formal;
            // Now and then a code for which there may never be an actual.
            let any = self.random.below(CODES as usize) as Code;
            let code = if self.random.chance(1, 16) { any } else { self.code(scope, CODES - 1) };
            formals.push((formal, code));
        }
        let meanings: Vec<_> =
            formals.iter().map(|&(formal, code)| (formal, Meaning::Code(code))).collect();
        let body = Room { nodes: room.nodes - 2 - count, levels: room.levels - 2 };
        let body = self.block(&scope.with(&meanings), body);
        let codes = formals.iter().map(|(_, code)| *code).collect();
        (bind_abs(name, &formals, body), vec![(name, Meaning::Function(codes))])
    }
}

/// Declarations under DSeqs, one after another, of any shape.
fn joined(random: &mut Random, mut all: Vec<Declaration>) -> Declaration {
    if all.len() == 1 {
        return all.remove(0);
    }
    let second = all.split_off(random.between(1, all.len() - 1));
    dseq(joined(random, all), joined(random, second))
}

/// So many DSeqs, each the first declaration of the one around it. Every Bind but
/// the first is of one more than the name bound before it; the last name is one
/// above their number.
pub fn to_the_left(count: Name) -> Declaration {
    let one_more = |name| bind(1 + name, sum(id(name), num(1)));
    (1..=count).fold(bind(1, num(4)), |first, name| dseq(first, one_more(name)))
}

/// So many DSeqs, each the second declaration of the one around it, and at the end
/// this one. Every Bind before it but the first is of the name bound before it.
pub fn to_the_right(count: Name, last: Declaration) -> Declaration {
    let before = |name| if name == 1 { num(4) } else { id(name - 1) };
    (1..=count).rev().fold(last, |second, name| dseq(bind(name, before(name)), second))
}
