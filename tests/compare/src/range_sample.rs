//! Calls for ranges made from the second interpreter's generators: limits of every sort, lists
//! of other lengths, and runs from starts within the limits.

use crate::difference::Difference;
use crate::ranges::{self, Lists, Ranged};
use crate::sample::{work_lengths, Mixture, Sample};
use crate::tally::Tally;
use second::carried::Range;
use second::generate::random::Random;
use second::generate::starts::starts;
use second::generate::{Case, Family};
use second::kinds::MOST_REGISTERS;

/// So many lists of limits are tried with one image, and so many runs from each that has ends.
pub const LISTS: usize = 3;
pub const RUNS: usize = 3;

/// What is counted for each run within the limits, and for each that is cut off.
pub const RUN_WITHIN: &str = "run within the limits";
pub const RUN_CUT_OFF: &str = "run within the limits, cut off";

/// For ranges: most of what has ends, some of all else.
pub const RANGED: Mixture = [
    (8, Family::Small),
    (4, Family::Medium),
    (2, Family::Large),
    (3, Family::Faulty),
    (6, Family::Sequences),
    (6, Family::Choices),
    (6, Family::Functions),
    (3, Family::Divisions),
    (40, Family::Ranges),
    (7, Family::Limits),
    (5, Family::Damaged),
    (3, Family::Empty),
    (3, Family::Shaped),
    (1, Family::Plausible),
    (1, Family::Words),
    (2, Family::Host),
];

type Compared = Result<Ranged, Box<Difference>>;

/// Compares the ranges of one sample: with work words enough, from limits of several sorts and
/// from lists of other lengths; with each of its other work slices, from one of these. Where
/// there are ends, runs are held to them.
pub fn compare_ranges(sample: Sample, tally: &mut Tally) -> Result<(), Box<Difference>> {
    let Case { image, work_length, .. } = sample.case();
    let random = &mut sample.random();
    let count = image.get(1).map_or(0, |registers| (*registers).min(MOST_REGISTERS)) as usize;
    let fitting: Vec<Vec<Range>> = (0..LISTS).map(|_| starts(random, count)).collect();
    let lengths = work_lengths(work_length, random);
    let mut compare = |lists: &Lists, work_length, random: &mut Random| -> Compared {
        let ranged = ranges::compare(&image, lists, work_length, random)
            .map_err(|difference| sample.named(difference))?;
        let (refusal, words) = ranges::in_words(ranged.answer);
        tally.count(refusal, words);
        Ok(ranged)
    };
    let mut with_ends = Vec::new();
    for starts in &fitting {
        let Ranged { answer, lists } = compare(&Lists::of(starts), lengths[0], random)?;
        if answer.is_ok() {
            with_ends.push((starts, lists.ranges()));
        }
    }
    compare(&of_other_lengths(&fitting[0], random), lengths[0], random)?;
    for length in &lengths[1..] {
        let starts: &Vec<Range> = random.pick(&fitting);
        compare(&Lists::of(starts), *length, random)?;
    }
    for (starts, ends) in with_ends {
        for _ in 0..RUNS {
            let cut_off = ranges::run_within(&image, starts, &ends, random)
                .map_err(|difference| sample.named(difference))?;
            tally.count(0, RUN_WITHIN.to_string());
            if cut_off {
                tally.count(0, RUN_CUT_OFF.to_string());
            }
        }
    }
    Ok(())
}

/// The lists with one of them, or both, longer or shorter by one or by more.
fn of_other_lengths(ranges: &[Range], random: &mut Random) -> Lists {
    let mut lists = Lists::of(ranges);
    let which = random.below(3);
    let mut change = |list: &mut Vec<i64>| match random.below(4) {
        0 => list.push(random.word() as i64),
        1 if !list.is_empty() => drop(list.pop()),
        1 | 2 => list.extend((0..17).map(|number| number - 8)),
        _ => list.truncate(list.len() / 2),
    };
    if which != 0 {
        change(&mut lists.lowest);
    }
    if which != 1 {
        change(&mut lists.highest);
    }
    lists
}
