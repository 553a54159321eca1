//! The automaton's state: control stack, value stack V, environment E, store S,
//! location set L, and the count of live bindings.

use crate::chain::Chain;
use crate::node::Node;
use crate::store::{LocationSet, Store, Value};
use crate::tree::*;

/// An entry of the control stack.
#[derive(Clone, Copy, Debug)]
pub enum ControlEntry<'t> {
    Node(Node<'t>),
    Mark(Mark<'t>),
}

/// What a node leaves on control to come back to.
#[derive(Clone, Copy, Debug)]
pub enum Mark<'t> {
    Binary(Operator),
    Not,
    Assign,
    Loop,
    Cond,
    Ref,
    Bind,
    /// A DSeq's first mark: its first declaration has run, and the second is to
    /// see its names.
    DSeqFirst,
    /// A DSeq's second mark: both declarations have run.
    DSeqSecond,
    Call(&'t Call),
    /// A Blk's first mark: its declaration has run.
    BlkFirst,
    /// A Blk's second mark, or the one behind a called function's Blk. It
    /// leaves the Blk or Call at this place and goes back to this count of live
    /// bindings.
    BlkSecond {
        place: Place,
        bindings: usize,
    },
}

/// An entry of the value stack.
#[derive(Clone, Debug)]
pub enum ValueEntry<'t> {
    Value(Value),
    Closure(Closure<'t>),
    Name(Name),
    Loop(&'t Loop),
    Cond(&'t Cond),
    Environment(Environment<'t>),
    Locations(LocationSet),
}

/// What a name is bound to.
#[derive(Clone, Debug)]
pub enum Bindable<'t> {
    Value(Value),
    Closure(Closure<'t>),
}

/// A closure: Formals and Blk of an Abs, and the environment it was met in.
#[derive(Clone, Debug)]
pub struct Closure<'t> {
    pub abs: &'t Abs,
    pub environment: Environment<'t>,
}

/// An environment, the newest name first: inner names hide outer ones.
pub type Environment<'t> = Chain<(Name, Bindable<'t>)>;

/// Control and values have their top at the end.
#[derive(Clone, Debug)]
pub struct State<'t> {
    pub control: Vec<ControlEntry<'t>>,
    pub values: Vec<ValueEntry<'t>>,
    pub environment: Environment<'t>,
    pub store: Store,
    pub locations: LocationSet,
    /// Live bindings: r, plus each Bind's name from its mark and each call's
    /// Formals from its mark, until the block or call is left.
    pub bindings: usize,
}

impl<'t> State<'t> {
    /// The start: the root on control, V empty, registers at cells 0 to r − 1,
    /// L empty. With no root control is empty, and the run has ended.
    pub fn start(routine: &'t Routine, starts: &[i64]) -> State<'t> {
        assert_eq!(starts.len(), routine.registers as usize, "one start a register");
        let store = Store::of_registers(starts);
        let mut environment = Environment::empty();
        for (name, location) in store.live_locations().into_iter().enumerate() {
            let bound = Bindable::Value(Value::Location(location));
            environment = environment.with((name as Name, bound));
        }
        State {
            control: routine.root.node().into_iter().map(ControlEntry::Node).collect(),
            values: Vec::new(),
            environment,
            store,
            locations: LocationSet::empty(),
            bindings: starts.len(),
        }
    }

    /// What a name is bound to.
    pub fn look(&self, name: Name) -> Option<&Bindable<'t>> {
        self.environment.iter().find(|(bound, _)| *bound == name).map(|(_, bindable)| bindable)
    }

    /// The registers, the first `count` cells.
    pub fn registers(&self, count: usize) -> Vec<i64> {
        let register =
            |index: usize| match self.store.contents(crate::store::Location(index as u32)) {
                Some(Value::Integer(value)) => value,
                other => panic!("register {index} holds {other:?}"),
            };
        (0..count).map(register).collect()
    }

    pub fn heights(&self) -> Heights {
        Heights {
            cells: self.store.live(),
            bindings: self.bindings,
            values: self.values.len(),
            control: self.control.len(),
        }
    }
}

/// The four things that have a limit, counted in one state; or the most of each over
/// several states.
#[derive(Clone, Copy, Debug, Default, PartialEq, Eq)]
pub struct Heights {
    pub cells: usize,
    pub bindings: usize,
    pub values: usize,
    pub control: usize,
}

impl Heights {
    /// In the order of the program's line, `most C B V K`.
    pub const fn new(cells: usize, bindings: usize, values: usize, control: usize) -> Heights {
        Heights { cells, bindings, values, control }
    }

    /// Raise each to the other's where that is higher: high marks over states.
    pub fn raise(&mut self, other: Heights) {
        self.cells = self.cells.max(other.cells);
        self.bindings = self.bindings.max(other.bindings);
        self.values = self.values.max(other.values);
        self.control = self.control.max(other.control);
    }

    /// None is above the other's.
    pub fn within(self, most: Heights) -> bool {
        self.cells <= most.cells
            && self.bindings <= most.bindings
            && self.values <= most.values
            && self.control <= most.control
    }
}
