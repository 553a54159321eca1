//! One call of `pi_run`, held against the second interpreter: its reply, the
//! registers, the image, the work words and every word beside the slices.

use crate::difference::Difference;
use crate::engine::{self, RunReply, CELL, NONE, NUMBER, TRUTH};
use crate::guarded::Guarded;
use crate::lent::{replies, Lent};
use second::engine::{Outcome, Reply, MOST_BUDGET};
use second::generate::random::Random;
use second::generate::Case;
use second::store::Location;
use second::Refusal;

/// What came of a run.
#[derive(Clone, Debug, PartialEq, Eq)]
pub struct Ran {
    pub reply: Reply,
    /// The registers after it.
    pub registers: Vec<i64>,
}

impl Ran {
    /// The refusal's number, or 0.
    pub fn refused(&self) -> u32 {
        self.reply.refusal().map_or(0, |refusal| refusal.number)
    }
}

/// The reply in the engine's numbers.
pub fn reply_of(reply: Reply) -> RunReply {
    let Reply { outcome, steps, marks } = reply;
    let (refusal, outcome, value, place) = match outcome {
        Outcome::Number(number) => (0, NUMBER, number as u64, 0),
        Outcome::Truth(truth) => (0, TRUTH, truth.into(), 0),
        Outcome::Cell(Location(number)) => (0, CELL, number.into(), 0),
        Outcome::None => (0, NONE, 0, 0),
        Outcome::Refused(Refusal { number, place }) => (number.into(), 0, 0, place.into()),
    };
    RunReply {
        refusal,
        outcome,
        value,
        place,
        steps,
        cells: marks.cells as u64,
        bindings: marks.bindings as u64,
        values: marks.values as u64,
        control: marks.control as u64,
    }
}

/// A reply without its value, place, steps and marks: the refusal, or 0, and the answer
/// in words.
pub fn in_words(reply: Reply) -> (u32, String) {
    match reply.outcome {
        Outcome::Number(_) => (0, "number".to_string()),
        Outcome::Truth(_) => (0, "truth".to_string()),
        Outcome::Cell(_) => (0, "cell".to_string()),
        Outcome::None => (0, "none".to_string()),
        Outcome::Refused(Refusal { number, .. }) => (number, format!("refused {number}")),
    }
}

/// What comes of this call, if the engine and the second interpreter agree on
/// everything.
pub fn compare(case: &Case, random: &mut Random) -> Result<Ran, Box<Difference>> {
    compare_with(engine::run, case, random)
}

/// The same for any function in the engine's place.
pub fn compare_with(
    run: impl FnOnce(&[u32], &mut [u64], u64, &mut [u64]) -> RunReply,
    case: &Case,
    random: &mut Random,
) -> Result<Ran, Box<Difference>> {
    let Case { image, registers: starts, budget, work_length } = case;
    let mut after = starts.clone();
    let reply = second::run(image, &mut after, *budget, *work_length);
    let mut lent = Lent::new(image, *work_length, random);
    let mut registers = Guarded::holding(&as_words(starts), random);

    let said = run(lent.image.slice(), registers.slice_mut(), *budget, lent.work.slice_mut());

    let mut faults = Vec::new();
    if said != reply_of(reply) {
        faults.extend(replies(in_full(reply_of(reply)), in_full(said)));
    }
    faults.extend(registers.fault("the register slice", &as_words(&after)));
    faults.extend(lent.faults(reply.refusal()));
    if faults.is_empty() {
        return Ok(Ran { reply, registers: after });
    }
    let call = format!(
        "run of {} words, registers {starts:?}, budget {budget}, work slice of {work_length} words",
        image.len(),
    );
    Err(Box::new(Difference { call, faults, image: image.clone(), bytes: Vec::new() }))
}

/// The same; a difference is told at the budget where it begins to show, as far as
/// halving finds it: at the budget before there is none.
pub fn compare_narrowing(case: &Case, random: &mut Random) -> Result<Ran, Box<Difference>> {
    compare_narrowing_with(engine::run, case, random)
}

/// The same for any function in the engine's place.
pub fn compare_narrowing_with(
    run: impl Fn(&[u32], &mut [u64], u64, &mut [u64]) -> RunReply,
    case: &Case,
    random: &mut Random,
) -> Result<Ran, Box<Difference>> {
    compare_with(&run, case, random).map_err(|mut found| {
        let (mut least, mut shows) = (0, case.budget);
        while least < shows && shows <= MOST_BUDGET {
            let budget = least + (shows - least) / 2;
            match compare_with(&run, &Case { budget, ..case.clone() }, random) {
                Ok(_) => least = budget + 1,
                Err(difference) => (shows, found) = (budget, difference),
            }
        }
        found
    })
}

/// Integers as two's complement words.
pub fn as_words(integers: &[i64]) -> Vec<u64> {
    integers.iter().map(|integer| *integer as u64).collect()
}

/// A reply as the paper would say it, with its numbers.
pub fn in_full(reply: RunReply) -> String {
    let RunReply { refusal, outcome, value, place, steps, .. } = reply;
    let [cells, bindings, values, control] = reply.marks();
    let words = match (refusal, outcome, value, place) {
        (0, NONE, 0, 0) => "none".to_string(),
        (0, NUMBER, number, 0) => format!("number {}", number as i64),
        (0, TRUTH, 0 | 1, 0) => format!("truth {value}"),
        (0, CELL, cell, 0) => format!("cell {cell}"),
        (1.., 0, 0, _) => format!("refused {refusal} at {place}"),
        _ => "what is no reply".to_string(),
    };
    format!(
        "{words}, steps {steps}, most {cells} {bindings} {values} {control} \
         (refusal {refusal}, outcome {outcome}, value {value:#x}, place {place})"
    )
}
