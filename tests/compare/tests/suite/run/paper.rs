//! What the paper says of runs, in its own figures and in the engine's numbers,
//! which are written down here and asked of nobody.

use crate::helpers::*;
use compare::engine::{self, RunReply, CELL, NONE, NUMBER, TRUTH};
use compare::run::as_words;
use second::build::*;
use second::engine::{MOST_BUDGET, WORK_WORDS};
use second::generate::random::Random;

/// The engine's reply and the registers after it.
fn run(image: &[u32], starts: &[i64], budget: u64) -> (RunReply, Vec<i64>) {
    let mut registers = as_words(starts);
    let mut work = vec![u64::MAX; WORK_WORDS];
    let reply = engine::run(image, &mut registers, budget, &mut work);
    assert!(work.iter().all(|word| *word == 0));
    (reply, registers.into_iter().map(|word| word as i64).collect())
}

/// The high marks of a reply: cells, bindings, value entries, control entries.
type Marks = [u64; 4];

fn ended(outcome: u64, value: i64, steps: u64, marks: Marks) -> RunReply {
    let [cells, bindings, values, control] = marks;
    let (refusal, value, place) = (0, value as u64, 0);
    RunReply { refusal, outcome, value, place, steps, cells, bindings, values, control }
}

fn no(refusal: u64, place: u64, steps: u64, marks: Marks) -> RunReply {
    RunReply { refusal, place, ..ended(0, 0, steps, marks) }
}

#[test]
fn cases_a_to_l() {
    type Row = (&'static str, &'static [i64], u64, RunReply, &'static [i64]);
    const MOST: u64 = MOST_BUDGET;
    let table: [Row; 19] = [
        ("A", &[], MOST, ended(NUMBER, 25, 7, [0, 0, 3, 4]), &[]),
        ("A", &[], 6, no(30, 0, 6, [0, 0, 3, 4]), &[]),
        ("A", &[], 7, ended(NUMBER, 25, 7, [0, 0, 3, 4]), &[]),
        ("A", &[], 0, no(30, 0, 0, [0, 0, 0, 1]), &[]),
        ("D", &[], MOST, ended(NUMBER, -2, 4, [0, 0, 2, 3]), &[]),
        ("E", &[], MOST, no(31, 0, 3, [0, 0, 2, 3]), &[]),
        ("F", &[-7], MOST, ended(NUMBER, -4, 4, [1, 1, 2, 3]), &[-7]),
        ("G", &[1, 3], MOST, ended(NONE, 0, 71, [2, 2, 3, 6]), &[6, 0]),
        ("G", &[1, 20], MOST, ended(NONE, 0, 428, [2, 2, 3, 6]), &[2_432_902_008_176_640_000, 0]),
        ("G", &[1, 21], MOST, no(32, 0, 391, [2, 2, 3, 6]), &[8_515_157_028_618_240_000, 3]),
        ("H", &[5], MOST, ended(NONE, 0, 14, [2, 2, 5, 6]), &[10]),
        ("I", &[0], MOST, ended(NONE, 0, 21, [2, 4, 8, 8]), &[7]),
        ("J", &[9], MOST, ended(NONE, 0, 14, [2, 2, 5, 6]), &[10]),
        ("K", &[9], MOST, no(13, 4, 0, [0, 0, 0, 0]), &[9]),
        ("L", &[], MOST, ended(NONE, 0, 19, [2, 2, 5, 9]), &[]),
        ("L", &[], 18, no(30, 0, 18, [2, 2, 5, 9]), &[]),
        ("G", &[1, 3], 71, ended(NONE, 0, 71, [2, 2, 3, 6]), &[6, 0]),
        ("G", &[1, 3], 70, no(30, 0, 70, [2, 2, 3, 6]), &[6, 0]),
        ("G", &[1, 3], 10, no(30, 0, 10, [2, 2, 3, 5]), &[1, 3]),
    ];
    for (name, starts, budget, reply, registers) in table {
        let what = format!("case {name}, registers {starts:?}, budget {budget}");
        assert_eq!(run(&papers_image(name), starts, budget), (reply, registers.to_vec()), "{what}");
    }
}

#[test]
fn each_sort_of_outcome() {
    let outcome = |image: Vec<u32>, starts: &[i64]| run(&image, starts, MOST_BUDGET).0;
    assert_eq!(
        outcome(image(0, num(u32::MAX)), &[]),
        ended(NUMBER, u32::MAX.into(), 1, [0, 0, 1, 1])
    );
    assert_eq!(outcome(image(1, id(0)), &[i64::MIN]), ended(NUMBER, i64::MIN, 1, [1, 1, 1, 1]));
    assert_eq!(outcome(image(1, id(0)), &[-1]), ended(NUMBER, -1, 1, [1, 1, 1, 1]));
    assert_eq!(outcome(image(0, num(0)), &[]), ended(NUMBER, 0, 1, [0, 0, 1, 1]));
    assert_eq!(outcome(image(0, boo(false)), &[]), ended(TRUTH, 0, 1, [0, 0, 1, 1]));
    assert_eq!(outcome(image(0, boo(true)), &[]), ended(TRUTH, 1, 1, [0, 0, 1, 1]));
    assert_eq!(outcome(image(1, deref(0)), &[7]), ended(CELL, 0, 1, [1, 1, 1, 1]));
    assert_eq!(outcome(image(16, deref(15)), &[7; 16]), ended(CELL, 15, 1, [16, 16, 1, 1]));
    assert_eq!(outcome(image(1, assign(0, num(1))), &[7]), ended(NONE, 0, 3, [1, 1, 2, 2]));
    assert_eq!(outcome(image(1, absent()), &[7]), ended(NONE, 0, 0, [1, 1, 0, 0]));
}

/// The paper's images at every budget, against the second interpreter.
#[test]
fn at_every_budget() {
    for (_, image, _) in papers_images() {
        for start in [0, 1, 3, 9, -7, 21, i64::MAX, i64::MIN] {
            let starts = vec![start; image[1] as usize];
            // Up to 21 rounds and beyond the end.
            for budget in 0..=460 {
                let mut case = with_starts(image.clone(), &starts);
                case.budget = budget;
                agreed_run(&case, &mut Random::new(budget));
            }
        }
    }
}
