//! Free runs whose states are alike but for their values: they go on alike, for what a name,
//! a cell or an entry of V holds decides nothing there.

use crate::free_run::FreeRun;
use crate::state::{ControlEntry, Mark, ValueEntry};
use std::hash::{Hash, Hasher};
use std::mem::discriminant;

/// A free run, equal to every one that is alike. Environments and location sets are alike
/// only if they are the very same: a command gives back those that it found.
pub struct Alike<'t>(pub FreeRun<'t>);

impl PartialEq for Alike<'_> {
    fn eq(&self, other: &Self) -> bool {
        let same_choices = self.0.behind == other.0.behind;
        let (one, other) = (&self.0.state, &other.0.state);
        same_choices
            && one.heights() == other.heights()
            && one.environment.same(&other.environment)
            && one.locations.same(&other.locations)
            && one.control.iter().zip(&other.control).all(|(one, other)| same_item(one, other))
            && one.values.iter().zip(&other.values).all(|(one, other)| alike(one, other))
    }
}

impl Eq for Alike<'_> {}

impl Hash for Alike<'_> {
    fn hash<H: Hasher>(&self, hasher: &mut H) {
        for entry in &self.0.state.control {
            match entry {
                ControlEntry::Node(node) => node.place().hash(hasher),
                ControlEntry::Mark(Mark::BlkSecond { place, .. }) => place.hash(hasher),
                ControlEntry::Mark(mark) => discriminant(mark).hash(hasher),
            }
        }
    }
}

/// The same node, or the same mark.
fn same_item(one: &ControlEntry, other: &ControlEntry) -> bool {
    match (one, other) {
        (ControlEntry::Node(one), ControlEntry::Node(other)) => one.place() == other.place(),
        (ControlEntry::Mark(one), ControlEntry::Mark(other)) => match (one, other) {
            (Mark::Binary(one), Mark::Binary(other)) => one == other,
            (Mark::Call(one), Mark::Call(other)) => one.place == other.place,
            (
                Mark::BlkSecond { place, bindings },
                Mark::BlkSecond { place: other_place, bindings: other_bindings },
            ) => (place, bindings) == (other_place, other_bindings),
            _ => discriminant(one) == discriminant(other),
        },
        _ => false,
    }
}

/// The same entry of V, or a value each.
pub fn alike(one: &ValueEntry, other: &ValueEntry) -> bool {
    match (one, other) {
        (ValueEntry::Value(_), ValueEntry::Value(_)) => true,
        (ValueEntry::Name(one), ValueEntry::Name(other)) => one == other,
        (ValueEntry::Loop(one), ValueEntry::Loop(other)) => one.place == other.place,
        (ValueEntry::Cond(one), ValueEntry::Cond(other)) => one.place == other.place,
        (ValueEntry::Locations(one), ValueEntry::Locations(other)) => one.same(other),
        (ValueEntry::Environment(one), ValueEntry::Environment(other)) => one.same(other),
        (ValueEntry::Closure(one), ValueEntry::Closure(other)) => {
            one.abs.place == other.abs.place && one.environment.same(&other.environment)
        }
        _ => false,
    }
}
