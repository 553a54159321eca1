//! One call of `pi_ranges`, held against the second interpreter: its reply, both lists, the
//! image, the work words and every word beside the slices. And runs from starts within the
//! limits, held to the ends.

use crate::difference::Difference;
use crate::engine::{self, RangesReply};
use crate::guarded::Guarded;
use crate::lent::{replies, Lent};
use crate::run::as_words;
use second::carried::Range;
use second::engine::{MOST_BUDGET, WORK_WORDS};
use second::generate::random::Random;
use second::generate::starts::within;
use second::refusal::STEPS;
use second::Refusal;

/// The two lists of a call, which may be of any lengths.
#[derive(Clone, Debug, PartialEq, Eq)]
pub struct Lists {
    pub lowest: Vec<i64>,
    pub highest: Vec<i64>,
}

impl Lists {
    pub fn of(ranges: &[Range]) -> Lists {
        let lowest = ranges.iter().map(|range| range.lowest).collect();
        Lists { lowest, highest: ranges.iter().map(|range| range.highest).collect() }
    }

    /// The range of each register, where the lists are of one length.
    pub fn ranges(&self) -> Vec<Range> {
        let pairs = self.lowest.iter().zip(&self.highest);
        pairs.map(|(lowest, highest)| Range::new(*lowest, *highest)).collect()
    }
}

/// What came of a call for ranges.
#[derive(Clone, Debug, PartialEq, Eq)]
pub struct Ranged {
    pub answer: Result<(), Refusal>,
    /// Both lists after it.
    pub lists: Lists,
}

impl Ranged {
    /// The refusal's number, or 0.
    pub fn refused(&self) -> u32 {
        self.answer.err().map_or(0, |refusal| refusal.number)
    }
}

/// The reply that says an answer.
pub fn reply_of(answer: Result<(), Refusal>) -> RangesReply {
    match answer {
        Ok(()) => RangesReply { refusal: 0, place: 0 },
        Err(Refusal { number, place }) => {
            RangesReply { refusal: number.into(), place: place.into() }
        }
    }
}

/// An answer without its place: the refusal, or 0, and the answer in words.
pub fn in_words(answer: Result<(), Refusal>) -> (u32, String) {
    match answer {
        Ok(()) => (0, "ends".to_string()),
        Err(Refusal { number, .. }) => (number, format!("refused {number}")),
    }
}

/// What comes of a call with this image, these lists and a work slice of this length, if the
/// engine and the second interpreter agree on everything.
pub fn compare(
    image: &[u32],
    before: &Lists,
    work_length: usize,
    random: &mut Random,
) -> Result<Ranged, Box<Difference>> {
    compare_with(engine::ranges, image, before, work_length, random)
}

/// The same for any function in the engine's place.
pub fn compare_with(
    ranges: impl FnOnce(&[u32], &mut [i64], &mut [i64], &mut [u64]) -> RangesReply,
    image: &[u32],
    before: &Lists,
    work_length: usize,
    random: &mut Random,
) -> Result<Ranged, Box<Difference>> {
    let mut lists = before.clone();
    let answer = second::ranges(image, &mut lists.lowest, &mut lists.highest, work_length);
    let mut lent = Lent::new(image, work_length, random);
    let mut lowest = Guarded::holding(&before.lowest, random);
    let mut highest = Guarded::holding(&before.highest, random);

    let work = lent.work.slice_mut();
    let reply = ranges(lent.image.slice(), lowest.slice_mut(), highest.slice_mut(), work);

    let mut faults = Vec::new();
    if reply != reply_of(answer) {
        faults.extend(replies(in_full(reply_of(answer)), in_full(reply)));
    }
    for (what, list, expected) in
        [("the lowest", &lowest, &lists.lowest), ("the highest", &highest, &lists.highest)]
    {
        if let Some(fault) = list.fault(what, expected) {
            faults.push(fault);
            faults.push(format!("  they are {:?} and must be {expected:?}", list.slice()));
        }
    }
    faults.extend(lent.faults(answer.err()));
    if faults.is_empty() {
        return Ok(Ranged { answer, lists });
    }
    let call = format!(
        "ranges of {} words, from {:?} to {:?}, work slice of {work_length} words",
        image.len(),
        before.lowest,
        before.highest,
    );
    Err(Box::new(Difference { call, faults, image: image.to_vec(), bytes: Vec::new() }))
}

/// A reply as the paper would say it, with its numbers.
pub fn in_full(reply: RangesReply) -> String {
    let RangesReply { refusal, place } = reply;
    let words = match (refusal, place) {
        (0, 0) => "ends".to_string(),
        (1.., _) => format!("refused {refusal} at {place}"),
        _ => "what is no reply".to_string(),
    };
    format!("{words} (refusal {refusal}, place {place})")
}

/// A run of the engine from starts within the limits, at the greatest budget and at a lower one:
/// the first must end with each register within its ends, the second be refused with 30 and
/// nothing else. Answers whether there was a lower one.
pub fn run_within(
    image: &[u32],
    starts: &[Range],
    ends: &[Range],
    random: &mut Random,
) -> Result<bool, Box<Difference>> {
    let from: Vec<i64> = starts.iter().map(|range| within(random, *range)).collect();
    let work = &mut vec![random.word(); WORK_WORDS];
    let mut registers = as_words(&from);
    let whole = engine::run(image, &mut registers, MOST_BUDGET, work);
    let budget = random.below(whole.steps.max(1) as usize) as u64;
    let cut = engine::run(image, &mut as_words(&from), budget, work);
    let mut faults = Vec::new();
    if whole.refusal != 0 {
        faults.push(format!("the run is refused with {}", whole.refusal));
    }
    for (index, (register, range)) in registers.iter().zip(ends).enumerate() {
        if !range.holds(*register as i64) {
            let left = *register as i64;
            faults.push(format!("register {index} is left at {left}, and its range is {range}"));
        }
    }
    if whole.steps > 0 && (cut.refusal, cut.steps) != (STEPS.into(), budget) {
        faults.push(format!("with budget {budget} it is refused with {}", cut.refusal));
    }
    if faults.is_empty() {
        return Ok(whole.steps > 0);
    }
    let call = format!("run from {from:?}, within {starts:?}");
    Err(Box::new(Difference { call, faults, image: image.to_vec(), bytes: Vec::new() }))
}
