//! What the host calls: `check`, `run`, `needs`, `page` and `ranges`, with the order of refusals,
//! the registers, the lent page, the lists of ends and the work words (the paper's "What the
//! engine says no with").

use crate::carried::Range;
use crate::checker::{self, Passed};
use crate::execution::Execution;
use crate::needs::{self, Needs};
use crate::page::lines_of;
use crate::ranges::ends;
use crate::reader;
use crate::refusal::{self, Refusal};
use crate::state::{Heights, State, ValueEntry};
use crate::store::{Location, Value};
use crate::tree::{Code, Routine};

/// The greatest budget.
pub const MOST_BUDGET: u64 = 1_000_000;
/// The work words a call needs and, unless it answers 21 or 22, clears.
pub const WORK_WORDS: usize = 8_192;

/// The checker's answer.
#[derive(Clone, Copy, Debug, PartialEq, Eq)]
pub enum Answer {
    /// The root is an expression of this code.
    Code(Code),
    /// The root is a command, or there is no node.
    Command,
    Refused(Refusal),
}

/// The run's answer: an outcome or a refusal, the steps made, and the high marks: the
/// most of each height over all states reached, the first included.
#[derive(Clone, Copy, Debug, PartialEq, Eq)]
pub struct Reply {
    pub outcome: Outcome,
    pub steps: u64,
    pub marks: Heights,
}

#[derive(Clone, Copy, Debug, PartialEq, Eq)]
pub enum Outcome {
    Number(i64),
    Truth(bool),
    Cell(Location),
    None,
    Refused(Refusal),
}

/// The checker alone tests 22, then the image.
pub fn check(image: &[u32], work_length: usize) -> Answer {
    if work_length < WORK_WORDS {
        return Answer::Refused(Refusal::whole(refusal::WORK));
    }
    match pass(image) {
        Ok((_, Passed::Code(code))) => Answer::Code(code),
        Ok((_, Passed::Command)) => Answer::Command,
        Err(refusal) => Answer::Refused(refusal),
    }
}

/// A run tests 22, 21, the image, 20, then steps. 1 to 22 report 0 steps and marks
/// of 0, and keep the registers; 30 to 36 report the steps made and the marks until
/// then, and leave the registers as before the withheld step.
pub fn run(image: &[u32], registers: &mut [i64], budget: u64, work_length: usize) -> Reply {
    if work_length < WORK_WORDS {
        return Reply::refused(Refusal::whole(refusal::WORK));
    }
    if budget > MOST_BUDGET {
        return Reply::refused(Refusal::whole(refusal::BUDGET));
    }
    let routine = match pass(image) {
        Ok((routine, _)) => routine,
        Err(refusal) => return Reply::refused(refusal),
    };
    if registers.len() != routine.registers as usize {
        return Reply::refused(Refusal::whole(refusal::REGISTERS));
    }
    run_passed(&routine, registers, budget)
}

/// The steps of a routine that has passed, over as many registers as it has.
pub fn run_passed(routine: &Routine, registers: &mut [i64], budget: u64) -> Reply {
    let mut execution = Execution::start(routine, registers, budget);
    // A withheld step's state is not reached, and so not looked at.
    let mut marks = Heights::default();
    let reason = execution.finish(|at| marks.raise(at.state().heights()));
    registers.copy_from_slice(&execution.state().registers(registers.len()));
    let outcome = match reason {
        Some(reason) => Outcome::Refused(Refusal::whole(reason)),
        None => outcome(execution.state()),
    };
    Reply { outcome, steps: execution.steps(), marks }
}

/// The needs alone test 22, then the image, then 40. This effort is made to find them.
pub fn needs(image: &[u32], work_length: usize, effort: u64) -> Needs {
    if work_length < WORK_WORDS {
        return Needs::Refused(Refusal::whole(refusal::WORK));
    }
    match pass(image) {
        Ok((routine, _)) => needs::needs(&routine, effort),
        Err(refusal) => Needs::Refused(refusal),
    }
}

/// A page tests 22, then the image, then 41: the lent page is shorter than its lines. The
/// lines go to the front, and bytes beyond them stay; a refusal writes no byte.
pub fn page(image: &[u32], page: &mut [u8], work_length: usize) -> Result<(), Refusal> {
    if work_length < WORK_WORDS {
        return Err(Refusal::whole(refusal::WORK));
    }
    let (routine, _) = pass(image)?;
    let lines = lines_of(&routine);
    let front = page.get_mut(..lines.len()).ok_or(Refusal::whole(refusal::SHORT_PAGE))?;
    front.copy_from_slice(lines.as_bytes());
    Ok(())
}

/// Ranges test 22, then the image, then 20 for either list, then what the starts and the routine
/// are refused with. The ends take the place of the starts; a refusal keeps both lists.
pub fn ranges(
    image: &[u32],
    lowest: &mut [i64],
    highest: &mut [i64],
    work_length: usize,
) -> Result<(), Refusal> {
    if work_length < WORK_WORDS {
        return Err(Refusal::whole(refusal::WORK));
    }
    let (routine, _) = pass(image)?;
    if [lowest.len(), highest.len()] != [routine.registers as usize; 2] {
        return Err(Refusal::whole(refusal::REGISTERS));
    }
    let starts = lowest.iter().zip(highest.iter());
    let starts: Vec<_> = starts.map(|(lowest, highest)| Range::new(*lowest, *highest)).collect();
    for (register, end) in ends(&routine, &starts)?.into_iter().enumerate() {
        (lowest[register], highest[register]) = (end.lowest, end.highest);
    }
    Ok(())
}

/// What becomes of the work words in a call that answers so: 21 and 22 touch
/// nothing; every other call ends with the first 8,192 words 0 and the rest
/// untouched.
pub fn settle_work(work: &mut [u64], refusal: Option<Refusal>) {
    match refusal.map(|refusal| refusal.number) {
        Some(refusal::BUDGET | refusal::WORK) => {}
        _ => work[..WORK_WORDS].fill(0),
    }
}

impl Answer {
    pub fn refusal(self) -> Option<Refusal> {
        match self {
            Answer::Refused(refusal) => Some(refusal),
            _ => None,
        }
    }
}

impl Reply {
    /// A call refused before its first state: no steps, and no marks.
    pub fn refused(refusal: Refusal) -> Reply {
        Reply { outcome: Outcome::Refused(refusal), steps: 0, marks: Heights::default() }
    }

    pub fn refusal(self) -> Option<Refusal> {
        match self.outcome {
            Outcome::Refused(refusal) => Some(refusal),
            _ => None,
        }
    }
}

/// The image's own refusals: shape, then scope and types.
pub fn pass(image: &[u32]) -> Result<(Routine, Passed), Refusal> {
    let routine = reader::read(image)?;
    let passed = checker::judge(&routine)?;
    Ok((routine, passed))
}

/// The outcome of a run that ended normally: V is empty for a command, and where
/// there is no routine; else it holds the expression's one value.
fn outcome(state: &State) -> Outcome {
    match state.values.as_slice() {
        [] => Outcome::None,
        [ValueEntry::Value(Value::Integer(integer))] => Outcome::Number(*integer),
        [ValueEntry::Value(Value::Truth(truth))] => Outcome::Truth(*truth),
        [ValueEntry::Value(Value::Location(location))] => Outcome::Cell(*location),
        other => panic!("a run ended with {other:?} on V"),
    }
}
