//! Every family of the generators, tens of thousands of images in all.

use crate::helpers::{compared, reaches};
use compare::sample::{compare_check, Sample, CHECKED};
use compare::tally::Tally;
use second::generate::Family;

/// Compares so many images of a family; the tally says what came up.
fn family(family: Family, count: u64) -> Tally {
    compared(compare_check, 0xc0de_0000, family, count, 1)
}

#[test]
fn small() {
    let tally = family(Family::Small, 10_000);
    reaches(&tally, &[0, 22], 500);
}

#[test]
fn medium() {
    let tally = family(Family::Medium, 3_000);
    reaches(&tally, &[0, 22], 100);
}

#[test]
fn large() {
    let tally = family(Family::Large, 600);
    reaches(&tally, &[0, 22], 20);
}

#[test]
fn faulty() {
    let tally = family(Family::Faulty, 4_000);
    reaches(&tally, &[0, 22], 100);
}

#[test]
fn sequences() {
    let tally = family(Family::Sequences, 6_000);
    reaches(&tally, &[0, 10, 11, 12, 13, 14, 22], 20);
}

#[test]
fn choices() {
    let tally = family(Family::Choices, 6_000);
    reaches(&tally, &[0, 4, 5, 10, 11, 13, 14, 22], 10);
}

#[test]
fn functions() {
    let tally = family(Family::Functions, 6_000);
    reaches(&tally, &[0, 5, 10, 11, 12, 14, 22], 10);
}

#[test]
fn limits() {
    let tally = family(Family::Limits, 2_000);
    reaches(&tally, &[0, 2, 6, 22], 50);
}

#[test]
fn damaged() {
    let tally = family(Family::Damaged, 12_000);
    reaches(&tally, &[0, 1, 2, 3, 4, 5, 6, 10, 11, 12, 13, 14, 22], 30);
}

#[test]
fn empty() {
    let tally = family(Family::Empty, 4_000);
    reaches(&tally, &[0, 1, 2, 22], 200);
}

#[test]
fn shaped() {
    let tally = family(Family::Shaped, 10_000);
    reaches(&tally, &[0, 10, 11, 22], 50);
}

#[test]
fn plausible() {
    let tally = family(Family::Plausible, 10_000);
    reaches(&tally, &[0, 1, 2, 3, 4, 5, 22], 20);
}

#[test]
fn words() {
    let tally = family(Family::Words, 4_000);
    reaches(&tally, &[0, 1, 2, 22], 50);
}

#[test]
fn host() {
    let tally = family(Family::Host, 6_000);
    reaches(&tally, &[0, 1, 2, 3, 4, 5, 10, 11, 22], 20);
}

/// The mixture that long comparisons are made of.
#[test]
fn mixture() {
    let mut tally = Tally::default();
    for seed in 0..5_000 {
        compare_check(Sample::mixed(seed, &CHECKED), &mut tally)
            .unwrap_or_else(|difference| panic!("{difference}"));
    }
    reaches(&tally, &[0, 1, 2, 3, 4, 5, 6, 10, 11, 12, 13, 14, 22], 1);
}
