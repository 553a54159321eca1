//! Every family of the generators on bytes: some eighty thousand calls in all, as
//! checks and as runs, about half of them with changes.

use crate::helpers::{compared, reaches};
use compare::sample::{compare_bytes, Sample, CHECKED};
use compare::tally::Tally;
use second::generate::Family;

/// Compares the calls on bytes of so many images; the tally says what came up.
fn family(family: Family, count: u64) -> Tally {
    compared(compare_bytes, 0xb17e_0000, family, count, 10)
}

#[test]
fn small() {
    let tally = family(Family::Small, 700);
    reaches(&tally, &[0, 1, 2, 3, 4, 5, 20, 21, 22, 30, 31, 32], 5);
}

#[test]
fn medium() {
    let tally = family(Family::Medium, 300);
    reaches(&tally, &[0, 1, 2, 20, 21, 22, 30, 31, 32], 2);
}

#[test]
fn large() {
    let tally = family(Family::Large, 60);
    reaches(&tally, &[0, 1, 2, 20, 21, 22, 30], 5);
}

#[test]
fn faulty() {
    let tally = family(Family::Faulty, 300);
    reaches(&tally, &[0, 1, 2, 20, 30, 31, 32], 50);
}

#[test]
fn sequences() {
    let tally = family(Family::Sequences, 300);
    reaches(&tally, &[0, 1, 2, 10, 11, 12, 20, 21, 22, 30, 31], 5);
}

#[test]
fn choices() {
    let tally = family(Family::Choices, 300);
    reaches(&tally, &[0, 1, 2, 4, 5, 10, 11, 20, 21, 22, 30, 31], 5);
}

#[test]
fn functions() {
    let tally = family(Family::Functions, 200);
    reaches(&tally, &[0, 1, 2, 10, 14, 20, 21, 22, 30], 5);
}

#[test]
fn divisions() {
    let tally = family(Family::Divisions, 300);
    reaches(&tally, &[0, 1, 2, 20, 21, 22, 30, 31, 32], 5);
}

#[test]
fn limits() {
    let tally = family(Family::Limits, 300);
    reaches(&tally, &[0, 1, 2, 6, 20, 30, 33, 34, 35, 36], 10);
}

#[test]
fn damaged() {
    let tally = family(Family::Damaged, 1_000);
    reaches(&tally, &[0, 1, 2, 3, 4, 5, 6, 10, 11, 12, 13, 14, 20, 21, 22, 30], 5);
}

#[test]
fn empty() {
    let tally = family(Family::Empty, 700);
    reaches(&tally, &[0, 1, 2, 20, 21, 22], 50);
}

#[test]
fn shaped() {
    let tally = family(Family::Shaped, 700);
    reaches(&tally, &[0, 1, 2, 10, 11, 20, 21, 22, 30], 10);
}

#[test]
fn plausible() {
    let tally = family(Family::Plausible, 700);
    reaches(&tally, &[0, 1, 2, 3, 4, 5, 21, 22], 10);
}

#[test]
fn words() {
    let tally = family(Family::Words, 400);
    reaches(&tally, &[0, 1, 2, 21, 22], 10);
}

#[test]
fn host() {
    let tally = family(Family::Host, 500);
    reaches(&tally, &[0, 1, 2, 3, 4, 5, 10, 11, 20, 21, 22, 30], 10);
}

/// The mixture that long comparisons are made of.
#[test]
fn mixture() {
    let mut tally = Tally::default();
    for seed in 0..600 {
        compare_bytes(Sample::mixed(seed, &CHECKED), &mut tally)
            .unwrap_or_else(|difference| panic!("{difference}"));
    }
    reaches(&tally, &[0, 1, 2, 3, 4, 5, 6, 10, 11, 20, 21, 22, 30, 31, 32], 1);
}
