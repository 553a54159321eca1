//! Every family of the generators: some three thousand inputs in all, of which a
//! third are changed ones.

use crate::helpers::{compared, reaches};
use compare::sample::{compare_program, Sample, RUN};
use compare::tally::Tally;
use second::generate::Family;

/// Compares what the program prints for so many images.
fn family(family: Family, count: u64) -> Tally {
    compared(compare_program, 0xbead_0000, family, count, 1)
}

#[test]
fn small() {
    reaches(&family(Family::Small, 500), &[0, 1, 2, 3, 30, 31, 32], 1);
}

#[test]
fn medium() {
    reaches(&family(Family::Medium, 200), &[0, 1, 2, 30, 31, 32], 1);
}

#[test]
fn large() {
    reaches(&family(Family::Large, 100), &[0, 1, 2, 30, 31, 32], 1);
}

#[test]
fn faulty() {
    reaches(&family(Family::Faulty, 200), &[0, 1, 2, 31, 32], 5);
}

#[test]
fn sequences() {
    reaches(&family(Family::Sequences, 300), &[0, 1, 2, 10, 11, 12, 31, 32], 1);
}

#[test]
fn choices() {
    reaches(&family(Family::Choices, 300), &[0, 1, 2, 4, 5, 10, 11, 31, 32], 1);
}

#[test]
fn functions() {
    reaches(&family(Family::Functions, 200), &[0, 1, 2, 10, 14, 30], 1);
}

#[test]
fn divisions() {
    reaches(&family(Family::Divisions, 300), &[0, 1, 2, 31, 32], 5);
}

#[test]
fn limits() {
    reaches(&family(Family::Limits, 200), &[0, 1, 2, 6, 33, 34, 35, 36], 3);
}

#[test]
fn damaged() {
    reaches(&family(Family::Damaged, 500), &[0, 1, 2, 3, 4, 5, 6, 10, 11, 12, 13, 14], 1);
}

#[test]
fn empty() {
    reaches(&family(Family::Empty, 200), &[0, 1, 2], 20);
}

#[test]
fn shaped() {
    reaches(&family(Family::Shaped, 500), &[0, 1, 2, 3, 10, 11], 5);
}

#[test]
fn plausible() {
    reaches(&family(Family::Plausible, 200), &[1, 2, 3, 4, 5], 5);
}

#[test]
fn words() {
    reaches(&family(Family::Words, 100), &[1, 2], 5);
}

#[test]
fn host() {
    reaches(&family(Family::Host, 150), &[0, 1, 2], 5);
}

/// The mixture that long comparisons are made of.
#[test]
fn mixture() {
    let mut tally = Tally::default();
    for seed in 0..200 {
        compare_program(Sample::mixed(seed, &RUN), &mut tally)
            .unwrap_or_else(|difference| panic!("{difference}"));
    }
    reaches(&tally, &[0, 1, 2, 3, 31, 32], 2);
    for number in 20..=22 {
        assert_eq!(tally.refused(number), 0);
    }
}
