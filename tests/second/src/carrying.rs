//! A routine carried over what is known of its cells: tasks one after another, as the
//! automaton goes, but with every value as far as it is known.
//!
//! Where a Cond's test may be both, the first command is carried with a copy of the cells
//! below it. When all its tasks are done the copy is taken up again for the second command,
//! and when that is done too, each cell has the wider of both. Nothing else is left of a
//! command: names and cells of its own are gone when it is done.

use crate::carried::{operate, Carried, Range, Truths};
use crate::chain::Chain;
use crate::node::Node;
use crate::store::Location;
use crate::tree::*;

/// What is to be done, and what is known.
pub struct Carrying<'t> {
    /// The next task is the last.
    tasks: Vec<Task<'t>>,
    /// The values of expressions that are not used yet, the newest last.
    values: Vec<Carried>,
    names: Names<'t>,
    /// The live cells, the registers first.
    cells: Vec<Carried>,
}

type Names<'t> = Chain<(Name, Meaning<'t>)>;

/// What a name is bound to.
#[derive(Clone)]
enum Meaning<'t> {
    Value(Carried),
    /// A function, with the names around its Bind.
    Function(&'t Abs, Names<'t>),
}

enum Task<'t> {
    Node(Node<'t>),
    /// Use the newest two values.
    Operate(Operator, Place),
    /// Use the newest value: to turn it round, to set a cell, to make a cell, to bind a name.
    Negate,
    Set(Name),
    Make,
    Bind(Name),
    /// Use the test of a Cond.
    Choose(&'t Cond),
    /// A Cond's first command is done, and the second starts from these cells.
    Second(&'t Command, Vec<Carried>),
    /// Both are, and the first one has left these cells.
    Widen(Vec<Carried>),
    /// Use as many values as there are actuals.
    Enter(&'t Call),
    /// Go back to these names and so many cells.
    Leave(Names<'t>, usize),
}

/// The ends of the registers after a routine that has no Loop; or the node with the first
/// operation that is not safe.
pub fn carry(routine: &Routine, starts: &[Range]) -> Result<Vec<Range>, Place> {
    let mut carrying = Carrying::start(routine, starts);
    while let Some(task) = carrying.tasks.pop() {
        carrying.make(task)?;
    }
    let ends = carrying.cells.into_iter().map(|cell| match cell {
        Carried::Range(range) => range,
        other => panic!("a register holds {other:?}"),
    });
    Ok(ends.collect())
}

impl<'t> Carrying<'t> {
    fn start(routine: &'t Routine, starts: &[Range]) -> Carrying<'t> {
        let registers = 0..starts.len() as u32;
        let cell = |number| Meaning::Value(Carried::Location(Location(number)));
        Carrying {
            tasks: routine.root.node().into_iter().map(Task::Node).collect(),
            values: Vec::new(),
            names: registers
                .fold(Chain::empty(), |names, number| names.with((number, cell(number)))),
            cells: starts.iter().map(|range| Carried::Range(*range)).collect(),
        }
    }

    /// Do a task; the place of an operation that is not safe.
    fn make(&mut self, task: Task<'t>) -> Result<(), Place> {
        match task {
            Task::Node(node) => self.meet(node),
            Task::Operate(operator, place) => {
                let (right, left) = (self.value(), self.value());
                self.values.push(operate(operator, left, right).map_err(|_| place)?);
            }
            Task::Negate => {
                let truths = self.truths();
                self.values.push(Carried::Truths(truths.negated()));
            }
            Task::Set(name) => {
                let Location(number) = self.cell_of(name);
                self.cells[number as usize] = self.value();
            }
            Task::Make => {
                let (number, first) = (self.cells.len() as u32, self.value());
                self.cells.push(first);
                self.values.push(Carried::Location(Location(number)));
            }
            Task::Bind(name) => {
                let value = Meaning::Value(self.value());
                self.names = self.names.with((name, value));
            }
            Task::Choose(node) => match self.truths() {
                Truths::BOTH => {
                    self.tasks.push(Task::Second(&node.second, self.cells.clone()));
                    self.put(&node.first);
                }
                Truths { is_true: true, .. } => self.put(&node.first),
                Truths { .. } => self.put(&node.second),
            },
            Task::Second(command, before) => {
                let first_left = std::mem::replace(&mut self.cells, before);
                self.tasks.push(Task::Widen(first_left));
                self.put(command);
            }
            Task::Widen(other) => {
                assert_eq!(self.cells.len(), other.len(), "a command leaves the cells it found");
                for (cell, other) in self.cells.iter_mut().zip(other) {
                    *cell = cell.widened(other);
                }
            }
            Task::Enter(node) => self.enter(node),
            Task::Leave(names, cells) => {
                self.names = names;
                self.cells.truncate(cells);
            }
        }
        Ok(())
    }

    /// A node is met: its value is known at once, or tasks take its place, the first one
    /// put last.
    fn meet(&mut self, node: Node<'t>) {
        match node {
            Node::Expression(node) => self.meet_expression(node),
            Node::Assign(node) => {
                self.tasks.push(Task::Set(node.name));
                self.put(&node.value);
            }
            Node::CSeq(node) => {
                self.put(&node.second);
                self.put(&node.first);
            }
            Node::Cond(node) => {
                self.tasks.push(Task::Choose(node));
                self.put(&node.test);
            }
            Node::Blk(node) => {
                self.tasks.push(Task::Leave(self.names.clone(), self.cells.len()));
                self.put(&node.command);
                self.put(&node.declaration);
            }
            Node::Call(node) => {
                self.tasks.push(Task::Enter(node));
                // The last one put is the first to come: actuals come last to first.
                node.actuals.iter().for_each(|actual| self.put(actual));
            }
            Node::DSeq(node) => {
                self.put(&node.second);
                self.put(&node.first);
            }
            Node::Bind(node) => match &node.bound {
                Bound::Abs(abs) => {
                    let function = Meaning::Function(abs, self.names.clone());
                    self.names = self.names.with((node.name, function));
                }
                bound => {
                    self.tasks.push(Task::Bind(node.name));
                    self.put(bound);
                }
            },
            Node::Ref(node) => {
                self.tasks.push(Task::Make);
                self.put(&node.value);
            }
            Node::Loop(_) | Node::Abs(_) | Node::Formal(_) => panic!("{node:?} is no task"),
        }
    }

    fn meet_expression(&mut self, node: &'t Expression) {
        let value = match &node.form {
            Form::Num(number) => Carried::number((*number).into()),
            Form::Boo(truth) => Carried::truth(*truth),
            Form::Id(name) => match self.bound_to(*name) {
                Carried::Location(location) => self.contents(location),
                plain => plain,
            },
            Form::DeRef(name) => Carried::Location(self.cell_of(*name)),
            Form::ValRef(name) => match self.contents(self.cell_of(*name)) {
                Carried::Location(location) => self.contents(location),
                other => panic!("ValRef {name}: the cell holds {other:?}"),
            },
            Form::Binary(operator, left, right) => {
                self.tasks.push(Task::Operate(*operator, node.place));
                self.put(right);
                self.put(left);
                return;
            }
            Form::Not(operand) => {
                self.tasks.push(Task::Negate);
                self.put(operand);
                return;
            }
        };
        self.values.push(value);
    }

    /// A function's Blk, with the names around its Bind and the Formals. The actuals came last
    /// to first, so the first one's value is the newest.
    fn enter(&mut self, node: &'t Call) {
        let Meaning::Function(abs, around) = self.meaning(node.name).clone() else {
            panic!("name {} is no function", node.name);
        };
        self.tasks.push(Task::Leave(self.names.clone(), self.cells.len()));
        self.names = abs.formals.iter().fold(around, |names, formal| {
            let actual = Meaning::Value(self.value());
            names.with((formal.name, actual))
        });
        self.tasks.push(Task::Node(Node::Blk(&abs.body)));
    }

    fn put(&mut self, node: impl Into<Node<'t>>) {
        self.tasks.push(Task::Node(node.into()));
    }

    /// The newest value, which is used.
    fn value(&mut self) -> Carried {
        self.values.pop().expect("a value")
    }

    fn truths(&mut self) -> Truths {
        match self.value() {
            Carried::Truths(truths) => truths,
            other => panic!("{other:?} for a truth"),
        }
    }

    fn meaning(&self, name: Name) -> &Meaning<'t> {
        let mut named = self.names.iter().filter(|(bound, _)| *bound == name);
        named.next().map(|(_, meaning)| meaning).expect("a name that is bound")
    }

    fn bound_to(&self, name: Name) -> Carried {
        match self.meaning(name) {
            Meaning::Value(value) => *value,
            Meaning::Function(..) => panic!("name {name} is a function"),
        }
    }

    fn cell_of(&self, name: Name) -> Location {
        match self.bound_to(name) {
            Carried::Location(location) => location,
            other => panic!("name {name} is bound to {other:?}, no cell"),
        }
    }

    fn contents(&self, location: Location) -> Carried {
        self.cells[location.0 as usize]
    }
}
