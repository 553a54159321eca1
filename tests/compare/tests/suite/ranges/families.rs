//! Every family of the generators, each image from limits of several sorts and with lists of
//! other lengths; and runs from starts within the limits, held to the ends.

use crate::helpers::{compared, reaches};
use compare::range_sample::{compare_ranges, RANGED, RUN_CUT_OFF, RUN_WITHIN};
use compare::sample::Sample;
use compare::tally::Tally;
use second::generate::Family;

/// Compares the ranges of so many images of a family; the tally says what came up.
fn family(family: Family, count: u64) -> Tally {
    compared(compare_ranges, 0xface_0000, family, count, 4)
}

/// So many calls gave ends, and so many runs were held to them.
fn has_ends(tally: &Tally, often: u64) {
    for words in ["ends", RUN_WITHIN, RUN_CUT_OFF] {
        assert!(tally.said(words) >= often, "{words} in\n{}", tally.text());
    }
}

#[test]
fn ranges() {
    let tally = family(Family::Ranges, 2_500);
    has_ends(&tally, 4_000);
    reaches(&tally, &[20, 22, 40, 42, 43, 44], 50);
}

#[test]
fn small() {
    let tally = family(Family::Small, 1_500);
    has_ends(&tally, 1_000);
    reaches(&tally, &[20, 22, 42, 43, 44], 30);
}

#[test]
fn medium() {
    reaches(&family(Family::Medium, 400), &[0, 20, 22, 42, 43], 10);
}

#[test]
fn large() {
    reaches(&family(Family::Large, 100), &[20, 42, 43], 5);
}

/// A Div by 0 or a product that is too large in many places: 44 tells which comes first.
#[test]
fn faulty() {
    reaches(&family(Family::Faulty, 2_000), &[0, 20, 42, 43, 44], 50);
}

#[test]
fn divisions() {
    reaches(&family(Family::Divisions, 1_500), &[0, 20, 42, 43, 44], 50);
}

#[test]
fn sequences() {
    reaches(&family(Family::Sequences, 1_000), &[0, 10, 11, 12, 13, 14, 20, 22, 42, 43], 10);
}

#[test]
fn choices() {
    reaches(&family(Family::Choices, 1_000), &[0, 4, 5, 10, 11, 13, 14, 20, 22, 42, 43], 10);
}

#[test]
fn functions() {
    reaches(&family(Family::Functions, 600), &[0, 5, 10, 11, 12, 14, 20, 22, 40, 42, 43], 5);
}

#[test]
fn limits() {
    reaches(&family(Family::Limits, 500), &[0, 2, 6, 20, 22, 33, 34, 35, 36, 42, 43], 5);
}

#[test]
fn damaged() {
    let tally = family(Family::Damaged, 2_500);
    reaches(&tally, &[0, 1, 2, 3, 4, 5, 6, 10, 11, 12, 13, 14, 20, 22, 42], 20);
}

#[test]
fn empty() {
    reaches(&family(Family::Empty, 1_000), &[0, 1, 2, 20, 22, 42], 20);
}

#[test]
fn shaped_plausible_and_words() {
    reaches(&family(Family::Shaped, 2_000), &[0, 10, 11, 20, 22], 30);
    reaches(&family(Family::Plausible, 2_000), &[0, 1, 2, 3, 4, 5, 22], 10);
    reaches(&family(Family::Words, 1_000), &[1, 2, 22], 30);
}

#[test]
fn host() {
    reaches(&family(Family::Host, 1_000), &[0, 1, 2, 3, 4, 5, 10, 11, 20, 22], 10);
}

/// The mixture that long comparisons are made of.
#[test]
fn mixture() {
    let mut tally = Tally::default();
    for seed in 0..1_500 {
        compare_ranges(Sample::mixed(seed, &RANGED), &mut tally)
            .unwrap_or_else(|difference| panic!("{difference}"));
    }
    has_ends(&tally, 1_500);
    let images = [1, 2, 3, 4, 5, 6, 10, 11, 12, 13, 14, 20, 22];
    reaches(&tally, &images, 1);
    reaches(&tally, &[33, 34, 35, 36, 40, 42, 43, 44], 1);
}
