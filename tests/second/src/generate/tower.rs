//! Towers: commands nested so deep at run time that an inner command meets a
//! chosen height of control stack, value stack, bindings and cells.
//!
//! No tree is deeper than 64, but a chain of functions each of which calls the
//! one defined before it is as deep at run time as all their bodies together:
//!
//! Blk(helper, Blk(function 0, Blk(function 1, … Call function k − 1 …)))
//!
//! Function i runs its layers around a Call of function i − 1, and function 0
//! its layers around the inner command. While the inner command runs, each Blk
//! and each Call that is not left holds two entries of V (the saved E and L) and
//! one of control (the second mark); each CSeq and Loop one of control; a Cond
//! nothing.

use crate::build::*;
use crate::state::Heights;
use crate::tree::*;

/// A function that sets register 0 to 1, with Formals of code 0. Every inner
/// command may call it.
pub const HELPER: Name = 63;
const FUNCTIONS: Name = 16;
const FORMALS: Name = 32;
/// The names that layers bind: 40 to 62.
const LOCALS: Name = 40;
/// The most names one block layer binds.
pub const MOST_LOCALS: usize = 23;

/// A command around another.
#[derive(Clone, Copy, Debug, PartialEq, Eq)]
pub enum Layer {
    /// A Blk with so many plain Binds and so many Binds of a Ref.
    Block { plain: usize, cells: usize },
    /// A CSeq with Assign(0, 1) behind; there must be a register.
    Sequence,
    /// A Loop without end.
    Forever,
    /// A Cond that takes its first command, or its second; the other one is
    /// Assign(0, 2), so there must be a register.
    Choice { first: bool },
}

/// The least block layer: one plain Bind.
pub const BLOCK: Layer = Layer::Block { plain: 1, cells: 0 };

#[derive(Clone, Debug)]
pub struct Tower {
    pub registers: usize,
    /// How many functions call one another, 0 to 16.
    pub functions: usize,
    /// How many Formals each of them has, 0 to 8.
    pub formals: usize,
    /// How many Formals the helper has, 0 to 8.
    pub helper_formals: usize,
    /// The outermost layer first; shared out evenly among the functions.
    pub layers: Vec<Layer>,
    pub inner: Command,
}

impl Tower {
    /// A tower whose inner command starts with so many entries on V, an even
    /// number, and on control, itself included. `functions` of them share the
    /// layers; there is one register.
    pub fn reaching(values: usize, control: usize, functions: usize, inner: Command) -> Tower {
        let frames = values / 2;
        let blocks = frames - 1 - 3 * functions;
        let sequences = control - 1 - frames;
        // Blocks and sequences take turns as far as both go.
        let mut layers = Vec::new();
        for index in 0..blocks.max(sequences) {
            if index < blocks {
                layers.push(BLOCK);
            }
            if index < sequences {
                layers.push(Layer::Sequence);
            }
        }
        Tower { registers: 1, functions, formals: 0, helper_formals: 0, layers, inner }
    }

    /// The heights in the state that has the inner command on top of control.
    pub fn heights(&self) -> Heights {
        let mut heights = Heights {
            cells: self.registers,
            // The helper's name; each function's own name, Formals and local.
            bindings: self.registers + 1 + self.functions * (2 + self.formals),
            values: 0,
            control: 1,
        };
        // The helper's Blk; each function's defining Blk, Call and body.
        let mut frames = 1 + 3 * self.functions;
        for layer in &self.layers {
            match layer {
                Layer::Block { plain, cells } => {
                    frames += 1;
                    heights.bindings += plain + cells;
                    heights.cells += cells;
                }
                Layer::Sequence | Layer::Forever => heights.control += 1,
                Layer::Choice { .. } => {}
            }
        }
        heights.values = 2 * frames;
        heights.control += frames;
        heights
    }

    pub fn routine(&self) -> Routine {
        routine(self.registers as u32, self.root())
    }

    fn root(&self) -> Command {
        let mut command = if self.functions == 0 {
            wrap(&self.layers, self.inner.clone())
        } else {
            self.call(self.functions - 1)
        };
        for index in (0..self.functions).rev() {
            command = blk(self.function(index), command);
        }
        let body = block(bind(LOCALS, num(0)), assign(0, num(1)));
        blk(bind_abs(HELPER, &formals(self.helper_formals), body), command)
    }

    fn function(&self, index: usize) -> Declaration {
        let next = if index == 0 { self.inner.clone() } else { self.call(index - 1) };
        let body = block(bind(LOCALS, num(0)), wrap(self.share(index), next));
        bind_abs(FUNCTIONS + index as Name, &formals(self.formals), body)
    }

    fn call(&self, index: usize) -> Command {
        call(FUNCTIONS + index as Name, vec![num(0); self.formals])
    }

    /// The layers of one function. The last function is called first, so it has
    /// the outermost ones.
    fn share(&self, index: usize) -> &[Layer] {
        let turn = self.functions - 1 - index;
        let start = |turn: usize| self.layers.len() * turn / self.functions;
        &self.layers[start(turn)..start(turn + 1)]
    }
}

fn formals(count: usize) -> Vec<(Name, Code)> {
    (0..count).map(|index| (FORMALS + index as Name, 0)).collect()
}

/// The layers around a command, the first outermost.
fn wrap(layers: &[Layer], inner: Command) -> Command {
    layers.iter().rev().fold(inner, |command, layer| match layer {
        Layer::Block { plain, cells } => {
            let local = |index: usize| {
                let name = LOCALS + index as Name;
                if index < *plain {
                    bind(name, num(0))
                } else {
                    bind_ref(name, num(0))
                }
            };
            blk(declarations((0..plain + cells).map(local).collect()), command)
        }
        Layer::Sequence => cseq(command, assign(0, num(1))),
        Layer::Forever => repeat(boo(true), command),
        Layer::Choice { first: true } => cond(boo(true), command, assign(0, num(2))),
        Layer::Choice { first: false } => cond(boo(false), assign(0, num(2)), command),
    })
}
