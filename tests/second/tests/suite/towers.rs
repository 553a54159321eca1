//! Towers run to their ends, for the tests of limits: the reason, what was on top of
//! control, and the heights.

use crate::helpers::*;
use second::effect::Effect;
use second::encode;
use second::engine::MOST_BUDGET;
use second::execution::{reasons_of_room, Execution};
use second::generate::tower::Tower;
use second::kinds::{by_kind, Kind};
use second::reader::read;
use second::rules::apply;
use second::state::{ControlEntry, Heights, Mark, State, ValueEntry};
use second::tree::Command;
use std::ops::RangeInclusive;

/// An entry of control: a node's kind, or the mark of one.
pub fn named(entry: &ControlEntry) -> String {
    let kind = match entry {
        ControlEntry::Node(node) => return by_kind(node.kind()).name.to_string(),
        ControlEntry::Mark(mark) => match mark {
            Mark::Binary(operator) => Kind::Binary(*operator),
            Mark::Not => Kind::Not,
            Mark::Assign => Kind::Assign,
            Mark::Loop => Kind::Loop,
            Mark::Cond => Kind::Cond,
            Mark::Ref => Kind::Ref,
            Mark::Bind => Kind::Bind,
            Mark::DSeqFirst | Mark::DSeqSecond => Kind::DSeq,
            Mark::Call(_) => Kind::Call,
            Mark::BlkFirst | Mark::BlkSecond { .. } => Kind::Blk,
        },
    };
    format!("mark of {}", by_kind(kind).name)
}

/// What is on top of control.
pub fn top(state: &State) -> String {
    state.control.last().map_or("nothing".to_string(), named)
}

/// How a tower's run ended: the reason and what was on top of control, or
/// `None`; and the heights of its last state. The engine must say the same.
pub fn end(tower: &Tower) -> (Option<(u32, String)>, Heights) {
    let image = encode(&tower.routine());
    let routine = read(&image).expect("a tower has the right shape");
    let starts = vec![0; tower.registers];
    let mut execution = Execution::start(&routine, &starts, MOST_BUDGET);
    let reason = execution.finish(|_| {});
    let (reply, _) = run_at(&image, &starts, MOST_BUDGET);
    assert_eq!(reply.refusal().map(|refusal| refusal.number), reason);
    assert_eq!(reply.steps, execution.steps());
    if let Some(reason) = reason {
        // The budget comes before any limit.
        let withheld = |reason| withheld(reason, reply.steps, reply.marks);
        assert_eq!(run_at(&image, &starts, reply.steps).0, withheld(30));
        assert_eq!(run_at(&image, &starts, reply.steps + 1).0, withheld(reason));
    }
    let state = execution.state();
    (reason.map(|reason| (reason, top(state))), state.heights())
}

pub fn passes(tower: &Tower) {
    assert_eq!(end(tower).0, None);
}

pub fn stops(tower: &Tower, reason: u32, at: &str) -> Heights {
    let (ended, heights) = end(tower);
    assert_eq!(ended, Some((reason, at.to_string())));
    heights
}

/// A tower of 11 functions whose inner command meets these heights.
pub fn tower(values: usize, control: usize, inner: Command) -> Tower {
    let tower = Tower::reaching(values, control, 11, inner);
    assert_eq!((tower.heights().values, tower.heights().control), (values, control));
    tower
}

/// The high marks of a tower's run.
pub fn most(values: usize, control: usize, inner: Command) -> Heights {
    run_at(&encode(&tower(values, control, inner).routine()), &[0], MOST_BUDGET).0.marks
}

/// A state with entries put below on both stacks until they are so high.
pub fn raised(mut state: State, values: usize, control: usize) -> State {
    let missing = values - state.values.len();
    state.values.splice(0..0, vec![ValueEntry::Name(0); missing]);
    let missing = control - state.control.len();
    state.control.splice(0..0, vec![ControlEntry::Mark(Mark::Assign); missing]);
    state
}

/// The heights of the state after the next step.
pub fn after(state: &State) -> Heights {
    let mut effect = Effect::none();
    apply(state, &mut effect).unwrap();
    effect.heights_after(state)
}

/// The reason that the run of a tower with one register ends for, if it is one of room,
/// all that hold there in their order, and what was on top of control.
pub fn reasons(tower: &Tower) -> (Option<u32>, Vec<u32>, String) {
    let routine = read(&encode(&tower.routine())).unwrap();
    let mut execution = Execution::start(&routine, &[0], MOST_BUDGET);
    let reason = execution.finish(|_| {});
    let state = execution.state();
    let all = match reason {
        Some(_) => reasons_of_room(after(state)).into_iter().flatten().collect(),
        None => Vec::new(),
    };
    (reason, all, top(state))
}

/// From every start at these heights, no step of these commands is withheld for two reasons
/// of room, and none at this mark. How often it was for 35, and for 36.
pub fn one_reason_at_a_time(
    commands: &[Command],
    values: RangeInclusive<usize>,
    control: RangeInclusive<usize>,
    mark: &str,
) -> [usize; 2] {
    let mut met = [0; 2];
    for inner in commands {
        for values in values.clone().step_by(2) {
            for control in control.clone() {
                let (reason, all, at) = reasons(&tower(values, control, inner.clone()));
                if reason.is_some() {
                    assert_eq!(all.len(), 1, "{values}, {control}");
                    assert_ne!(at, mark);
                    met[all[0] as usize - 35] += 1;
                }
            }
        }
    }
    met
}
