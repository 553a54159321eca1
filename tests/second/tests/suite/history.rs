//! What is known of a run besides its state: what cells were made with, and the
//! states that nodes came to the top in. Each step is held against it.

use second::alike::alike;
use second::node::Node;
use second::state::*;
use second::store::{Location, LocationSet, Value};
use second::tree::{Code, Cond, Name, Place};

/// A state with a Blk or a Call on top of control, kept to compare its leaving.
struct Entered<'t> {
    place: Place,
    environment: Environment<'t>,
    locations: LocationSet,
    values: Vec<ValueEntry<'t>>,
    live: Vec<Location>,
    compared: bool,
}

/// A state with a DSeq on top of control, kept to compare what its marks leave.
struct Sequence<'t> {
    environment: Environment<'t>,
    values: Vec<ValueEntry<'t>>,
}

/// A state with a Cond on top of control, kept to compare what its two steps leave.
struct Choice<'t> {
    node: &'t Cond,
    state: State<'t>,
    /// What the test came to, once it has.
    truth: Option<bool>,
}

/// What is known of a run besides its state.
pub struct History<'t> {
    /// The type each live cell was made with, by location.
    made: Vec<Code>,
    entered: Vec<Entered<'t>>,
    /// The DSeqs whose second mark is to come, the innermost last.
    sequences: Vec<Sequence<'t>>,
    /// The Cond whose mark is to come: at most one, for a test has no command.
    choice: Option<Choice<'t>>,
}

impl<'t> History<'t> {
    pub fn start(state: &State) -> History<'t> {
        let made = vec![0; state.store.live()];
        History { made, entered: Vec::new(), sequences: Vec::new(), choice: None }
    }

    /// The type of a value: an integer has 0, a truth 1, a location 2 more than
    /// its live cell was made with.
    pub fn code(&self, value: Value) -> Code {
        match value {
            Value::Integer(_) => 0,
            Value::Truth(_) => 1,
            Value::Location(Location(number)) => self.made[number as usize] + 2,
        }
    }

    /// Take note of the state before a step.
    pub fn before(&mut self, state: &State<'t>) {
        if let Some(ControlEntry::Node(node @ (Node::Blk(_) | Node::Call(_)))) =
            state.control.last()
        {
            self.entered.push(Entered {
                place: node.place(),
                environment: state.environment.clone(),
                locations: state.locations.clone(),
                values: state.values.clone(),
                live: state.store.live_locations(),
                compared: false,
            });
        }
        if let Some(ControlEntry::Node(Node::DSeq(_))) = state.control.last() {
            let environment = state.environment.clone();
            self.sequences.push(Sequence { environment, values: state.values.clone() });
        }
        match state.control.last() {
            Some(ControlEntry::Node(Node::Cond(node))) => {
                assert!(self.choice.is_none(), "a Cond in the test of another");
                self.choice = Some(Choice { node, state: state.clone(), truth: None });
            }
            Some(ControlEntry::Mark(Mark::Cond)) => {
                let Some(ValueEntry::Value(Value::Truth(truth))) = state.values.last() else {
                    panic!("a Cond's mark with {:?} on V", state.values.last());
                };
                let choice = self.choice.as_mut().expect("a Cond's mark follows a Cond");
                choice.truth = Some(*truth);
            }
            _ => {}
        }
    }

    /// Take note of the state after a step, which was at this node or mark, and check
    /// it.
    pub fn after(&mut self, at: ControlEntry, state: &State<'t>) {
        let live = state.store.live();
        self.made.truncate(live);
        if self.made.len() < live {
            let newest = state.store.contents(Location(live as u32 - 1)).unwrap();
            self.made.push(self.code(newest));
        }
        for location in state.store.live_locations() {
            let contents = state.store.contents(location).unwrap();
            assert_eq!(self.code(contents), self.made[location.0 as usize], "{location:?}");
        }
        match at {
            ControlEntry::Mark(Mark::BlkSecond { place, .. }) => self.compare(place, state),
            ControlEntry::Mark(Mark::DSeqFirst) => self.compare_kept(state),
            ControlEntry::Mark(Mark::DSeqSecond) => self.compare_given_back(state),
            ControlEntry::Node(Node::Cond(_)) => self.compare_tested(state),
            ControlEntry::Mark(Mark::Cond) => self.compare_taken(state),
            _ => {}
        }
    }

    /// A Cond's own step leaves itself on V, and on control its test and its mark in
    /// its place.
    fn compare_tested(&self, state: &State) {
        let Choice { node, state: before, .. } =
            self.choice.as_ref().expect("the state before a Cond's step is kept");
        let [below @ .., ValueEntry::Cond(kept)] = state.values.as_slice() else {
            panic!("a Cond leaves {:?}", state.values);
        };
        assert_eq!(kept.place, node.place);
        assert!(same_entries(below, &before.values));
        let [.., ControlEntry::Mark(Mark::Cond), ControlEntry::Node(test)] =
            state.control.as_slice()
        else {
            panic!("a Cond leaves {:?} on control", state.control.last());
        };
        assert_eq!(test.place(), node.test.place);
        assert_eq!(state.control.len(), before.control.len() + 1);
        assert!(state.environment.same(&before.environment));
        assert!(state.locations.same(&before.locations));
    }

    /// Its mark leaves all as it was before the Cond, with the command that the truth
    /// takes in the Cond's place.
    fn compare_taken(&mut self, state: &State) {
        let Choice { node, state: before, truth } =
            self.choice.take().expect("a Cond's mark follows a Cond");
        let taken = if truth == Some(true) { &node.first } else { &node.second };
        let Some(ControlEntry::Node(command)) = state.control.last() else {
            panic!("a Cond's mark leaves {:?} on control", state.control.last());
        };
        assert_eq!(command.place(), Node::from(taken).place());
        assert_eq!(state.heights(), before.heights());
        assert!(same_entries(&state.values, &before.values));
        assert!(state.environment.same(&before.environment));
        assert!(state.locations.same(&before.locations));
    }

    /// A DSeq's first mark leaves on V the E of before and then the first
    /// declaration's environment, whose names are added to E.
    fn compare_kept(&self, state: &State) {
        let sequence = self.sequences.last().expect("a DSeq's mark follows a DSeq");
        let [below @ .., ValueEntry::Environment(kept), ValueEntry::Environment(first)] =
            state.values.as_slice()
        else {
            panic!("a DSeq's first mark leaves {:?}", state.values);
        };
        assert!(same_entries(below, &sequence.values));
        assert!(kept.same(&sequence.environment));
        let names = |environment: &Environment| -> Vec<Name> {
            environment.iter().map(|(name, _)| *name).collect()
        };
        assert_eq!(names(&state.environment), [names(first), names(kept)].concat());
    }

    /// Its second mark leaves one environment on V and the E of before.
    fn compare_given_back(&mut self, state: &State) {
        let sequence = self.sequences.pop().expect("a DSeq's mark follows a DSeq");
        let [below @ .., ValueEntry::Environment(_)] = state.values.as_slice() else {
            panic!("a DSeq's second mark leaves {:?}", state.values);
        };
        assert!(same_entries(below, &sequence.values));
        assert!(state.environment.same(&sequence.environment));
    }

    /// A leaving of a node is compared with the latest earlier state that has
    /// this node on top and that no earlier leaving was compared with.
    fn compare(&mut self, place: Place, state: &State) {
        let latest = self
            .entered
            .iter_mut()
            .rev()
            .find(|entered| entered.place == place && !entered.compared);
        let entered = latest.expect("a node that is left was entered");
        entered.compared = true;
        assert!(state.environment.same(&entered.environment));
        assert!(state.locations.same(&entered.locations));
        assert_eq!(state.store.live_locations(), entered.live);
        assert!(same_entries(&state.values, &entered.values));
    }
}

fn same_entries(some: &[ValueEntry], others: &[ValueEntry]) -> bool {
    some.len() == others.len() && some.iter().zip(others).all(|(one, other)| same_entry(one, other))
}

fn same_entry(one: &ValueEntry, other: &ValueEntry) -> bool {
    match (one, other) {
        (ValueEntry::Value(one), ValueEntry::Value(other)) => one == other,
        _ => alike(one, other),
    }
}
