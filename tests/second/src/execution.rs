//! A run, state by state: budget, limits and withheld steps.
//!
//! The states of a run are the start and the one each made step leaves. All of
//! them can be looked at between two calls of [`Execution::advance`].

use crate::effect::Effect;
use crate::refusal;
use crate::rules::apply;
use crate::state::{Heights, State};
use crate::tree::Routine;

pub const MOST_CELLS: usize = 256;
pub const MOST_BINDINGS: usize = 512;
pub const MOST_VALUES: usize = 512;
pub const MOST_CONTROL: usize = 512;

/// A run under way.
pub struct Execution<'t> {
    state: State<'t>,
    steps: u64,
    budget: u64,
    effect: Effect<'t>,
}

/// What came of the wish to go on.
#[derive(Clone, Copy, Debug, PartialEq, Eq)]
pub enum Advance {
    /// A step was made; the state is the one it left.
    Made,
    /// Control is empty: the run has ended normally. This is no step.
    Ended,
    /// The next step is withheld for this reason, 30 to 36; the state is as
    /// before.
    Withheld(u32),
}

impl<'t> Execution<'t> {
    pub fn start(routine: &'t Routine, starts: &[i64], budget: u64) -> Execution<'t> {
        let state = State::start(routine, starts);
        Execution { state, steps: 0, budget, effect: Effect::none() }
    }

    pub fn state(&self) -> &State<'t> {
        &self.state
    }

    /// Steps made so far: rules applied.
    pub fn steps(&self) -> u64 {
        self.steps
    }

    /// Make the next step, unless the run is over or the step is withheld.
    pub fn advance(&mut self) -> Advance {
        if self.state.control.is_empty() {
            return Advance::Ended;
        }
        // 30 is judged before the rule, and so comes before 31 to 36.
        if self.steps == self.budget {
            return Advance::Withheld(refusal::STEPS);
        }
        if let Err(reason) = apply(&self.state, &mut self.effect) {
            return Advance::Withheld(reason);
        }
        if let Some(reason) = room(self.effect.heights_after(&self.state)) {
            return Advance::Withheld(reason);
        }
        self.effect.make(&mut self.state);
        self.steps += 1;
        Advance::Made
    }

    /// Go on to the end, calling `look` with each state from this one on.
    /// Answers `None` for a normal end, else the reason.
    pub fn finish(&mut self, mut look: impl FnMut(&Execution<'t>)) -> Option<u32> {
        loop {
            look(self);
            match self.advance() {
                Advance::Made => {}
                Advance::Ended => return None,
                Advance::Withheld(reason) => return Some(reason),
            }
        }
    }
}

/// The reason of room that a step is withheld for, judged on the state after it: the
/// first that holds. `None` if the step leaves all four within their limits.
pub fn room(after: Heights) -> Option<u32> {
    reasons_of_room(after).into_iter().flatten().next()
}

/// Each reason of room that holds; the first in this order is the answer, so a full
/// control stack is named before a full V.
pub fn reasons_of_room(after: Heights) -> [Option<u32>; 4] {
    let over = |height, most, reason| if height > most { Some(reason) } else { None };
    [
        over(after.cells, MOST_CELLS, refusal::CELLS),
        over(after.bindings, MOST_BINDINGS, refusal::BINDINGS),
        over(after.control, MOST_CONTROL, refusal::CONTROL),
        over(after.values, MOST_VALUES, refusal::VALUES),
    ]
}
