//! Replies and answers as the cases write them down.

use second::engine::{Answer, Outcome, Reply};
use second::needs::Needs;
use second::state::Heights;
use second::tree::Place;
use second::Refusal;

/// The reply of a run that ended normally with a command's outcome.
pub fn ended(steps: u64, marks: Heights) -> Reply {
    Reply { outcome: Outcome::None, steps, marks }
}

/// The reply of a run withheld for this reason.
pub fn withheld(number: u32, steps: u64, marks: Heights) -> Reply {
    Reply { outcome: refused(number, 0), steps, marks }
}

/// The reply to a call refused before its first step.
pub fn not_run(number: u32, place: Place) -> Reply {
    Reply { outcome: refused(number, place), steps: 0, marks: Heights::new(0, 0, 0, 0) }
}

pub fn refused(number: u32, place: Place) -> Outcome {
    Outcome::Refused(Refusal::new(number, place))
}

pub fn answer_refused(number: u32, place: Place) -> Answer {
    Answer::Refused(Refusal::new(number, place))
}

pub fn needs_refused(number: u32, place: Place) -> Needs {
    Needs::Refused(Refusal::new(number, place))
}

pub fn page_refused(number: u32, place: Place) -> Result<(), Refusal> {
    Err(Refusal::new(number, place))
}

/// The lowest and the highest end of each register, or what they are refused with.
pub type Ends = Result<Vec<(i64, i64)>, Refusal>;

pub fn ends_refused(number: u32, place: Place) -> Ends {
    Err(Refusal::new(number, place))
}
