//! The run that takes both commands of every Cond, the first and then the second, whatever the
//! test came to. Its steps are a routine's with both commands of every Cond counted. And every
//! state of a free run has the sizes of one of its states: a command leaves nothing behind but
//! what cells hold, so it makes no difference there which command was taken before. So over its
//! states each room figure of the needs is reached and none is passed.

use crate::effect::Effect;
use crate::free_run::{FreeRun, Next};
use crate::state::{ControlEntry, Heights, Mark, State, ValueEntry};
use crate::tree::{Cond, Routine};

/// The most of each size over all states, and the steps.
#[derive(Clone, Copy, Debug, PartialEq, Eq)]
pub struct BothWays {
    pub room: Heights,
    pub steps: u64,
}

/// Both ways of a routine without Loop; `None` if they have more steps than this.
pub fn both_ways(routine: &Routine, most_steps: u64) -> Option<BothWays> {
    let mut run = FreeRun::start(routine);
    let effect = &mut Effect::none();
    let mut both = BothWays { room: Heights::default(), steps: 0 };
    // How high control is below each second command that waits for its first.
    let mut waiting: Vec<usize> = Vec::new();
    loop {
        let height = run.state.control.len();
        // One that is on top does not wait any more.
        waiting.pop_if(|below| *below + 1 == height);
        let heights = run.state.heights();
        // Those that wait stand on control in this run alone.
        both.room.raise(Heights { control: height - waiting.len(), ..heights });
        if run.next() == Next::End {
            return Some(both);
        }
        if both.steps == most_steps {
            return None;
        }
        match tested(&run.state) {
            Some(node) => {
                waiting.push(height - 1);
                run.step_as(true, effect);
                let first = run.state.control.pop().expect("the first command");
                run.state.control.extend([ControlEntry::Node((&node.second).into()), first]);
            }
            None => run.step(effect),
        }
        both.steps += 1;
    }
}

/// The Cond whose mark is on top.
fn tested<'t>(state: &State<'t>) -> Option<&'t Cond> {
    match (state.control.last(), state.values.as_slice()) {
        (Some(ControlEntry::Mark(Mark::Cond)), [.., ValueEntry::Cond(node), _]) => Some(node),
        (Some(ControlEntry::Mark(Mark::Cond | Mark::Loop)), _) => panic!("no Cond on V"),
        _ => None,
    }
}
