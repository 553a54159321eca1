//! Every family of the generators: some hundred thousand runs in all, short ones
//! at every budget.

use crate::helpers::{compared, reaches};
use compare::sample::{compare_run, Sample, RUN};
use compare::tally::Tally;
use second::generate::Family;

/// Compares the runs of so many images; the tally says what came up.
fn family(family: Family, count: u64) -> Tally {
    compared(compare_run, 0xfeed_0000, family, count, 2)
}

#[test]
fn small() {
    let tally = family(Family::Small, 4_000);
    reaches(&tally, &[0, 20, 21, 22, 30, 31, 32], 50);
}

#[test]
fn medium() {
    let tally = family(Family::Medium, 500);
    reaches(&tally, &[0, 20, 21, 22, 30, 31, 32], 5);
}

#[test]
fn large() {
    let tally = family(Family::Large, 200);
    reaches(&tally, &[0, 30, 31, 32], 5);
}

#[test]
fn faulty() {
    let tally = family(Family::Faulty, 2_000);
    reaches(&tally, &[0, 30, 31, 32], 200);
}

#[test]
fn sequences() {
    let tally = family(Family::Sequences, 2_000);
    reaches(&tally, &[0, 10, 11, 12, 13, 14, 30, 31, 32], 10);
}

#[test]
fn choices() {
    let tally = family(Family::Choices, 2_000);
    reaches(&tally, &[0, 4, 5, 10, 11, 13, 30, 31, 32], 10);
}

#[test]
fn functions() {
    let tally = family(Family::Functions, 1_000);
    reaches(&tally, &[0, 5, 10, 11, 14, 30], 5);
}

#[test]
fn divisions() {
    let tally = family(Family::Divisions, 3_000);
    reaches(&tally, &[0, 20, 21, 22, 30, 31, 32], 50);
}

#[test]
fn limits() {
    let tally = family(Family::Limits, 600);
    reaches(&tally, &[0, 2, 6, 30, 33, 34, 35, 36], 20);
}

#[test]
fn damaged() {
    let tally = family(Family::Damaged, 3_000);
    reaches(&tally, &[0, 1, 2, 3, 4, 5, 6, 10, 11, 12, 13, 14, 20, 21, 22, 30], 10);
}

#[test]
fn empty() {
    let tally = family(Family::Empty, 2_000);
    reaches(&tally, &[0, 1, 2, 20, 21, 22], 100);
}

#[test]
fn shaped() {
    let tally = family(Family::Shaped, 3_000);
    reaches(&tally, &[0, 10, 11, 21, 22, 30], 20);
}

#[test]
fn plausible() {
    let tally = family(Family::Plausible, 3_000);
    reaches(&tally, &[0, 1, 2, 3, 4, 5, 21, 22], 10);
}

#[test]
fn words() {
    let tally = family(Family::Words, 1_000);
    reaches(&tally, &[0, 1, 2, 21, 22], 10);
}

#[test]
fn host() {
    let tally = family(Family::Host, 2_000);
    reaches(&tally, &[0, 1, 2, 3, 4, 5, 10, 11, 20, 21, 22, 30], 20);
}

/// The mixture that long comparisons are made of.
#[test]
fn mixture() {
    let mut tally = Tally::default();
    for seed in 0..1_000 {
        compare_run(Sample::mixed(seed, &RUN), &mut tally)
            .unwrap_or_else(|difference| panic!("{difference}"));
    }
    reaches(&tally, &[0, 1, 2, 3, 4, 5, 6, 10, 11, 20, 21, 22], 1);
    reaches(&tally, &[30, 31, 32, 33, 34, 35, 36], 1);
}
