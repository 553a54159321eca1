//! The rules of the automaton (the paper's "The automaton").
//!
//! A rule looks at a state and writes down its effect. The state itself is only
//! read here, so a step that is withheld changes nothing. Where no rule applies
//! the interpreter stops with a panic: that must not come about in a routine the
//! checker passes.

use crate::arithmetic::operate;
use crate::effect::{Effect, StoreChange};
use crate::node::Node;
use crate::state::*;
use crate::store::{Location, LocationSet, Value};
use crate::tree::*;

/// The rule for the top of control, with its effect; or 31 or 32.
pub fn apply<'t>(state: &State<'t>, effect: &mut Effect<'t>) -> Result<(), u32> {
    effect.clear();
    match state.control.last() {
        Some(ControlEntry::Node(node)) => {
            at_node(*node, state, effect);
            Ok(())
        }
        Some(ControlEntry::Mark(mark)) => at_mark(*mark, state, effect),
        None => stuck("control is empty"),
    }
}

fn at_node<'t>(node: Node<'t>, state: &State<'t>, effect: &mut Effect<'t>) {
    match node {
        Node::Expression(node) => at_expression(&node.form, state, effect),
        Node::Assign(node) => {
            effect.values.push(ValueEntry::Name(node.name));
            effect.put(&node.value);
            effect.mark(Mark::Assign);
        }
        Node::Loop(node) => {
            effect.values.push(ValueEntry::Loop(node));
            effect.put(&node.test);
            effect.mark(Mark::Loop);
        }
        Node::CSeq(node) => {
            effect.put(&node.first);
            effect.put(&node.second);
        }
        Node::Blk(node) => {
            // Document 002, rule 32: four entries on control, L on V.
            effect.values.push(ValueEntry::Locations(state.locations.clone()));
            effect.locations = Some(LocationSet::empty());
            effect.put(&node.declaration);
            effect.mark(Mark::BlkFirst);
            effect.put(&node.command);
            effect.mark(Mark::BlkSecond { place: node.place, bindings: state.bindings });
        }
        Node::Call(node) => {
            // Actuals run last to first.
            for actual in node.actuals.iter().rev() {
                effect.put(actual);
            }
            effect.mark(Mark::Call(node));
        }
        Node::Cond(node) => {
            effect.values.push(ValueEntry::Cond(node));
            effect.put(&node.test);
            effect.mark(Mark::Cond);
        }
        Node::Bind(node) => {
            effect.values.push(ValueEntry::Name(node.name));
            effect.put(&node.bound);
            effect.mark(Mark::Bind);
        }
        Node::DSeq(node) => {
            effect.put(&node.first);
            effect.mark(Mark::DSeqFirst);
            effect.put(&node.second);
            effect.mark(Mark::DSeqSecond);
        }
        Node::Ref(node) => {
            effect.put(&node.value);
            effect.mark(Mark::Ref);
        }
        Node::Abs(abs) => {
            let closure = Closure { abs, environment: state.environment.clone() };
            effect.values.push(ValueEntry::Closure(closure));
        }
        Node::Formal(_) => stuck("a Formal is on control"),
    }
}

fn at_expression<'t>(form: &'t Form, state: &State<'t>, effect: &mut Effect<'t>) {
    match form {
        Form::Num(number) => effect.push(Value::Integer((*number).into())),
        Form::Boo(truth) => effect.push(Value::Truth(*truth)),
        Form::Id(name) => match bound_value(state, *name) {
            // Of a cell, its contents; a plain binding itself.
            Value::Location(location) => effect.push(contents(state, location)),
            plain => effect.push(plain),
        },
        Form::DeRef(name) => effect.push(Value::Location(bound_location(state, *name))),
        Form::ValRef(name) => match contents(state, bound_location(state, *name)) {
            Value::Location(location) => effect.push(contents(state, location)),
            other => stuck(&format!("ValRef {name}: the cell holds {other:?}")),
        },
        Form::Binary(operator, left, right) => {
            effect.put(left);
            effect.put(right);
            effect.mark(Mark::Binary(*operator));
        }
        Form::Not(operand) => {
            effect.put(operand);
            effect.mark(Mark::Not);
        }
    }
}

fn at_mark<'t>(mark: Mark<'t>, state: &State<'t>, effect: &mut Effect<'t>) -> Result<(), u32> {
    match mark {
        Mark::Binary(operator) => {
            let (left, right) = (value_at(state, 1), value_at(state, 0));
            effect.uses = 2;
            match operate(operator, left, right) {
                Some(result) => effect.push(result?),
                None => stuck(&format!("{operator:?} of {left:?} and {right:?}")),
            }
        }
        Mark::Not => {
            let truth = truth_at(state, 0);
            effect.uses = 1;
            effect.push(Value::Truth(!truth));
        }
        Mark::Assign => {
            let value = value_at(state, 0);
            let location = bound_location(state, name_at(state, 1));
            effect.uses = 2;
            contents(state, location);
            effect.store = StoreChange::Set(location, value);
        }
        Mark::Loop => {
            let truth = truth_at(state, 0);
            let ValueEntry::Loop(node) = *entry_at(state, 1) else {
                stuck("Loop's mark: no Loop on V");
            };
            effect.uses = 2;
            if truth {
                effect.put(&node.command);
                effect.put(Node::Loop(node));
            }
        }
        Mark::Cond => {
            let truth = truth_at(state, 0);
            let ValueEntry::Cond(node) = *entry_at(state, 1) else {
                stuck("Cond's mark: no Cond on V");
            };
            effect.uses = 2;
            effect.put(if truth { &node.first } else { &node.second });
        }
        Mark::Ref => {
            let first = value_at(state, 0);
            let location = state.store.next_location();
            effect.uses = 1;
            effect.store = StoreChange::Make(first);
            effect.locations = Some(state.locations.with(location));
            effect.push(Value::Location(location));
        }
        Mark::Bind => {
            let bound = match entry_at(state, 0) {
                ValueEntry::Value(value) => Bindable::Value(*value),
                ValueEntry::Closure(closure) => Bindable::Closure(closure.clone()),
                other => stuck(&format!("Bind's mark: {other:?} on V")),
            };
            let one_name = Environment::empty().with((name_at(state, 1), bound));
            effect.uses = 2;
            effect.values.push(ValueEntry::Environment(one_name));
            effect.bindings = Some(state.bindings + 1);
        }
        Mark::DSeqFirst => {
            // E is kept below the first declaration's environment, whose names
            // the second declaration sees.
            let first = environment_at(state, 0);
            effect.uses = 1;
            effect.values.push(ValueEntry::Environment(state.environment.clone()));
            effect.values.push(ValueEntry::Environment(first.clone()));
            effect.environment = Some(state.environment.joined(first));
        }
        Mark::DSeqSecond => {
            // The kept E comes back; the two environments are joined.
            let (first, second) = (environment_at(state, 1), environment_at(state, 0));
            effect.uses = 3;
            effect.values.push(ValueEntry::Environment(first.joined(second)));
            effect.environment = Some(environment_at(state, 2).clone());
        }
        Mark::Call(node) => at_call_mark(node, state, effect),
        Mark::BlkFirst => {
            let declared = environment_at(state, 0);
            effect.uses = 1;
            effect.values.push(ValueEntry::Environment(state.environment.clone()));
            effect.environment = Some(state.environment.joined(declared));
        }
        Mark::BlkSecond { place: _, bindings } => {
            let ValueEntry::Locations(outer) = entry_at(state, 1) else {
                stuck("second mark: no location set on V");
            };
            effect.uses = 2;
            effect.environment = Some(environment_at(state, 0).clone());
            // The block's own L is removed from S; the saved one comes back.
            effect.store = StoreChange::Remove(state.locations.clone());
            effect.locations = Some(outer.clone());
            effect.bindings = Some(bindings);
        }
    }
    Ok(())
}

/// A Call's mark: the closure's environment plus the Formals, then its Blk.
fn at_call_mark<'t>(node: &'t Call, state: &State<'t>, effect: &mut Effect<'t>) {
    let Some(Bindable::Closure(closure)) = state.look(node.name) else {
        stuck(&format!("Call of {}: no closure", node.name));
    };
    let formals = &closure.abs.formals;
    if formals.len() != node.actuals.len() {
        stuck(&format!("Call of {}: {} Formals", node.name, formals.len()));
    }
    // The actuals ran last to first, so the first one's value is on top.
    let mut environment = closure.environment.clone();
    for (depth, formal) in formals.iter().enumerate() {
        let actual = Bindable::Value(value_at(state, depth));
        environment = environment.with((formal.name, actual));
    }
    effect.uses = formals.len();
    effect.values.push(ValueEntry::Locations(state.locations.clone()));
    effect.values.push(ValueEntry::Environment(state.environment.clone()));
    effect.environment = Some(environment);
    effect.locations = Some(LocationSet::empty());
    effect.bindings = Some(state.bindings + formals.len());
    effect.put(Node::Blk(&closure.abs.body));
    effect.mark(Mark::BlkSecond { place: node.place, bindings: state.bindings });
}

// What a rule uses, found where it must be or the rule does not apply.

/// The entry of V at this depth, 0 being the top.
fn entry_at<'s, 't>(state: &'s State<'t>, depth: usize) -> &'s ValueEntry<'t> {
    match state.values.len().checked_sub(depth + 1) {
        Some(index) => &state.values[index],
        None => stuck("V is too short"),
    }
}

fn value_at(state: &State, depth: usize) -> Value {
    match entry_at(state, depth) {
        ValueEntry::Value(value) => *value,
        other => stuck(&format!("{other:?} on V for a value")),
    }
}

fn truth_at(state: &State, depth: usize) -> bool {
    match value_at(state, depth) {
        Value::Truth(truth) => truth,
        other => stuck(&format!("{other:?} on V for a truth")),
    }
}

fn name_at(state: &State, depth: usize) -> Name {
    match entry_at(state, depth) {
        ValueEntry::Name(name) => *name,
        other => stuck(&format!("{other:?} on V for a name")),
    }
}

fn environment_at<'s, 't>(state: &'s State<'t>, depth: usize) -> &'s Environment<'t> {
    match entry_at(state, depth) {
        ValueEntry::Environment(environment) => environment,
        other => stuck(&format!("{other:?} on V for an environment")),
    }
}

fn bound_value(state: &State, name: Name) -> Value {
    match state.look(name) {
        Some(Bindable::Value(value)) => *value,
        other => stuck(&format!("name {name} is bound to {other:?}")),
    }
}

fn bound_location(state: &State, name: Name) -> Location {
    match bound_value(state, name) {
        Value::Location(location) => location,
        other => stuck(&format!("name {name} is bound to {other:?}, no cell")),
    }
}

fn contents(state: &State, location: Location) -> Value {
    match state.store.contents(location) {
        Some(value) => value,
        None => stuck(&format!("{location:?} is not live")),
    }
}

#[cold]
fn stuck(why: &str) -> ! {
    panic!("no rule applies: {why}")
}
