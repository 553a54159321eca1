//! One row each: the check of an image and the run of a routine, by both, which must
//! give the same answer first; the needs and the page of an image beside its check, and the
//! ranges of a routine beside its run; and the clearing of the work words.

use crate::images::Timed;
use crate::measure::medians;
use crate::race::{Beside, BesideRun, Race};
use crate::ranged::Ranged;
use crate::routines::Routine;
use compare::difference::Difference;
use compare::ranges::Lists;
use compare::run::as_words;
use compare::{check, engine, needs, page, ranges, run};
use second::engine::{MOST_BUDGET, WORK_WORDS};
use second::generate::random::Random;
use second::generate::Case;
use std::hint::black_box;

/// The check of one image by both; a unit is a node.
pub fn check_race(timed: &Timed) -> Result<Race, String> {
    let Timed { name, image } = timed;
    let mut work = vec![0; WORK_WORDS];
    must_agree(name, check::compare(image, WORK_WORDS, &mut Random::new(0)))?;
    let [engine, second] = medians([
        &mut || {
            black_box(engine::check(black_box(image), black_box(&mut work)));
        },
        &mut || {
            black_box(second::check(black_box(image), WORK_WORDS));
        },
    ]);
    Ok(Race { name, units: timed.nodes().into(), engine, second })
}

/// The needs and the page of one image beside its check, by the engine. Both interpreters
/// must find the same needs and write the same page.
pub fn beside_check(timed: &Timed) -> Result<Beside, String> {
    let Timed { name, image } = timed;
    must_agree(name, needs::compare(image, WORK_WORDS, &mut Random::new(0)))?;
    must_agree(name, page::compare(image, &lent_page(timed), WORK_WORDS, &mut Random::new(0)))?;
    let [check, needs, page] = calls(timed, medians);
    Ok(Beside { name, nodes: timed.nodes(), check, needs, page })
}

/// A page with room for just the lines of an image.
fn lent_page(timed: &Timed) -> Vec<u8> {
    vec![0; page::LINE * timed.nodes() as usize]
}

/// The times of check, needs and page, as a measure has them.
fn calls(timed: &Timed, measure: fn([&mut dyn FnMut(); 3]) -> [f64; 3]) -> [f64; 3] {
    let image = &timed.image;
    let [mut of_check, mut of_needs, mut of_page] = [(); 3].map(|()| vec![0; WORK_WORDS]);
    let mut lent = lent_page(timed);
    measure([
        &mut || {
            black_box(engine::check(black_box(image), black_box(&mut of_check)));
        },
        &mut || {
            black_box(engine::needs(black_box(image), black_box(&mut of_needs)));
        },
        &mut || {
            let lent = black_box(&mut lent);
            black_box(engine::page(black_box(image), lent, black_box(&mut of_page)));
        },
    ])
}

/// The run of one routine by both; a unit is a step.
pub fn run_race(routine: &Routine) -> Result<Race, String> {
    let Routine { name, image, starts, steps } = routine;
    let case = Case {
        image: image.clone(),
        registers: starts.clone(),
        budget: MOST_BUDGET,
        work_length: WORK_WORDS,
    };
    must_agree(name, run::compare(&case, &mut Random::new(0)))?;
    let mut work = vec![0; WORK_WORDS];
    let words = as_words(starts);
    let mut registers = words.clone();
    let mut integers = starts.clone();
    let [engine, second] = medians([
        &mut || {
            registers.copy_from_slice(&words);
            let registers = black_box(&mut registers);
            black_box(engine::run(black_box(image), registers, MOST_BUDGET, black_box(&mut work)));
        },
        &mut || {
            integers.copy_from_slice(starts);
            let registers = black_box(&mut integers);
            black_box(second::run(black_box(image), registers, MOST_BUDGET, WORK_WORDS));
        },
    ]);
    Ok(Race { name, units: *steps, engine, second })
}

/// The ranges of one routine beside its run, by the engine. Both interpreters must give the
/// same ends, and there must be some.
pub fn beside_run(ranged: &Ranged) -> Result<BesideRun, String> {
    let Ranged { routine: Routine { name, image, starts, steps }, limits } = ranged;
    let limits = Lists::of(limits);
    let found = ranges::compare(image, &limits, WORK_WORDS, &mut Random::new(0));
    if let Ok(Err(refusal)) = found.as_ref().map(|ranged| ranged.answer) {
        return Err(format!("{name}: ranges are refused with {}", refusal.number));
    }
    must_agree(name, found)?;
    let [mut of_run, mut of_ranges] = [(); 2].map(|()| vec![0; WORK_WORDS]);
    let words = as_words(starts);
    let mut registers = words.clone();
    let mut lists = limits.clone();
    let [run, ranges] = medians([
        &mut || {
            registers.copy_from_slice(&words);
            let registers = black_box(&mut registers);
            black_box(engine::run(black_box(image), registers, MOST_BUDGET, &mut of_run));
        },
        &mut || {
            lists.clone_from(&limits);
            let Lists { lowest, highest } = black_box(&mut lists);
            black_box(engine::ranges(black_box(image), lowest, highest, &mut of_ranges));
        },
    ]);
    Ok(BesideRun { name, steps: *steps, run, ranges })
}

/// The time to clear the work words alone, in nanoseconds.
pub fn clearing() -> f64 {
    let mut work = vec![0_u64; WORK_WORDS];
    let [clearing] = medians([&mut || {
        black_box(&mut work).fill(black_box(0));
    }]);
    clearing
}

/// Where both do not give the same answer there is nothing to time.
fn must_agree<T>(name: &str, compared: Result<T, Box<Difference>>) -> Result<(), String> {
    let told = |difference| {
        format!("{name}: the answers differ, so there is nothing to time\n{difference}")
    };
    compared.map(|_| ()).map_err(told)
}

#[cfg(test)]
mod tests {
    use super::calls;
    use crate::images::needed;
    use crate::measure::leasts;
    use crate::race::MOST_RATIO;

    const TRIALS: usize = 5;
    /// A tenth more than is asked: what another processor may make of the same code. The
    /// benchmark's own table holds the ratio to what is asked.
    const ALLOWED: f64 = 1.1 * MOST_RATIO;

    /// By the least times, which what else the machine does makes greater and never less;
    /// and tried again where the ratio is too great.
    #[test]
    fn the_needs_take_about_twice_a_check_at_most() {
        for timed in needed() {
            let ratio = |_| {
                let [check, needs, _] = calls(&timed, leasts);
                needs / check
            };
            let is_too_great = |ratio: &f64| *ratio > ALLOWED;
            let too_great: Vec<f64> = (0..TRIALS).map(ratio).take_while(is_too_great).collect();
            assert!(too_great.len() < TRIALS, "{}: {too_great:?}", timed.name);
        }
    }
}
