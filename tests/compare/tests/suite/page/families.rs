//! Every family of the generators, each image in lent pages too short, exact and longer: some
//! tens of thousands of images in all.

use crate::helpers::{compared, reaches};
use compare::sample::{compare_page, Sample, RUN};
use compare::tally::Tally;
use second::generate::Family;

/// Compares the pages of so many images of a family; the tally says what came up.
fn family(family: Family, count: u64) -> Tally {
    compared(compare_page, 0xfade_0000, family, count, 3)
}

#[test]
fn small() {
    let tally = family(Family::Small, 3_000);
    reaches(&tally, &[0, 41], 5_000);
    reaches(&tally, &[22], 100);
}

#[test]
fn medium() {
    reaches(&family(Family::Medium, 1_000), &[0, 22, 41], 30);
}

#[test]
fn large() {
    reaches(&family(Family::Large, 200), &[0, 22, 41], 5);
}

#[test]
fn faulty() {
    reaches(&family(Family::Faulty, 1_000), &[0, 22, 41], 30);
}

#[test]
fn sequences() {
    reaches(&family(Family::Sequences, 2_000), &[0, 10, 11, 12, 13, 14, 22, 41], 20);
}

#[test]
fn choices() {
    reaches(&family(Family::Choices, 2_000), &[0, 4, 5, 10, 11, 13, 14, 22, 41], 20);
}

#[test]
fn functions() {
    reaches(&family(Family::Functions, 1_500), &[0, 5, 10, 11, 12, 14, 22, 41], 10);
}

#[test]
fn limits() {
    reaches(&family(Family::Limits, 600), &[0, 2, 6, 22, 41], 20);
}

#[test]
fn damaged() {
    let tally = family(Family::Damaged, 4_000);
    reaches(&tally, &[0, 1, 2, 3, 4, 5, 6, 10, 11, 12, 13, 14, 22, 41], 40);
}

/// An image with no node is never refused with 41.
#[test]
fn empty() {
    let tally = family(Family::Empty, 2_000);
    reaches(&tally, &[0, 1, 2, 22], 150);
    assert_eq!(tally.refused(41), 0, "{}", tally.text());
}

#[test]
fn shaped_plausible_and_words() {
    reaches(&family(Family::Shaped, 3_000), &[0, 10, 11, 22, 41], 50);
    reaches(&family(Family::Plausible, 3_000), &[0, 1, 2, 3, 4, 5, 22], 20);
    reaches(&family(Family::Words, 1_500), &[0, 1, 2, 22], 30);
}

#[test]
fn host() {
    reaches(&family(Family::Host, 2_000), &[0, 1, 2, 3, 4, 5, 10, 11, 22, 41], 20);
}

/// The mixture that long comparisons are made of.
#[test]
fn mixture() {
    let mut tally = Tally::default();
    for seed in 0..2_000 {
        compare_page(Sample::mixed(seed, &RUN), &mut tally)
            .unwrap_or_else(|difference| panic!("{difference}"));
    }
    reaches(&tally, &[0, 1, 2, 3, 4, 5, 6, 10, 11, 12, 13, 14, 22, 41], 1);
}
