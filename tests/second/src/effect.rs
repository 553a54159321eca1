//! What a step does to a state: what it uses of V, what it puts on each stack, and
//! what becomes of E, S, L and the count of live bindings. A rule writes it down;
//! the limits are judged on the heights it would leave, and only then is it made.

use crate::node::Node;
use crate::state::*;
use crate::store::{Location, LocationSet, Value};

/// What a step does, once its node or mark is off control.
#[derive(Debug)]
pub struct Effect<'t> {
    /// How many entries of V it uses, taken off first.
    pub uses: usize,
    /// What it puts on V, the last on top.
    pub values: Vec<ValueEntry<'t>>,
    /// What it puts on control, the first on top.
    pub control: Vec<ControlEntry<'t>>,
    pub store: StoreChange,
    /// The new environment, location set and count of live bindings, where they
    /// change.
    pub environment: Option<Environment<'t>>,
    pub locations: Option<LocationSet>,
    pub bindings: Option<usize>,
}

#[derive(Debug)]
pub enum StoreChange {
    None,
    Make(Value),
    Set(Location, Value),
    Remove(LocationSet),
}

impl<'t> Effect<'t> {
    pub fn none() -> Effect<'t> {
        Effect {
            uses: 0,
            values: Vec::new(),
            control: Vec::new(),
            store: StoreChange::None,
            environment: None,
            locations: None,
            bindings: None,
        }
    }

    /// Forget the last step's effect, keeping the room for the next.
    pub(crate) fn clear(&mut self) {
        self.uses = 0;
        self.values.clear();
        self.control.clear();
        self.store = StoreChange::None;
        self.environment = None;
        self.locations = None;
        self.bindings = None;
    }

    pub(crate) fn push(&mut self, value: Value) {
        self.values.push(ValueEntry::Value(value));
    }

    pub(crate) fn put(&mut self, node: impl Into<Node<'t>>) {
        self.control.push(ControlEntry::Node(node.into()));
    }

    pub(crate) fn mark(&mut self, mark: Mark<'t>) {
        self.control.push(ControlEntry::Mark(mark));
    }

    /// The heights of the state after the step.
    pub fn heights_after(&self, state: &State) -> Heights {
        let cells = match &self.store {
            StoreChange::Make(_) => state.store.live() + 1,
            StoreChange::Remove(locations) => state.store.live() - locations.iter().count(),
            StoreChange::None | StoreChange::Set(..) => state.store.live(),
        };
        Heights {
            cells,
            bindings: self.bindings.unwrap_or(state.bindings),
            values: state.values.len() - self.uses + self.values.len(),
            control: state.control.len() - 1 + self.control.len(),
        }
    }

    /// Make the step: the state becomes the one the effect describes.
    pub fn make(&mut self, state: &mut State<'t>) {
        state.control.pop();
        state.control.extend(self.control.drain(..).rev());
        state.values.truncate(state.values.len() - self.uses);
        state.values.append(&mut self.values);
        match &self.store {
            StoreChange::None => {}
            StoreChange::Make(first) => state.store.make(*first),
            StoreChange::Set(location, value) => state.store.set(*location, *value),
            StoreChange::Remove(locations) => state.store.remove(locations),
        }
        if let Some(environment) = self.environment.take() {
            state.environment = environment;
        }
        if let Some(locations) = self.locations.take() {
            state.locations = locations;
        }
        if let Some(bindings) = self.bindings {
            state.bindings = bindings;
        }
    }
}
