//! Every family of the generators: some tens of thousands of images in all.

use crate::helpers::{compared, reaches};
use compare::needs::NOT_KNOWN;
use compare::sample::{compare_needs, Sample, NEEDED};
use compare::tally::Tally;
use second::generate::Family;

/// Compares the needs of so many images; the tally says what came up. The figures of all
/// are known.
fn family(family: Family, count: u64) -> Tally {
    let tally = compared(compare_needs, 0xbeef_0000, family, count, 1);
    assert_eq!(tally.said(NOT_KNOWN), 0, "{}", tally.text());
    tally
}

/// Steps came up as a figure and open, so often at least.
fn has_figures(tally: &Tally, often: u64) {
    for words in ["figures", "figures, steps open"] {
        assert!(tally.said(words) >= often, "{words} in\n{}", tally.text());
    }
}

#[test]
fn small() {
    let tally = family(Family::Small, 6_000);
    has_figures(&tally, 1_000);
    reaches(&tally, &[22], 200);
}

#[test]
fn medium() {
    let tally = family(Family::Medium, 2_000);
    has_figures(&tally, 300);
    reaches(&tally, &[22], 50);
}

#[test]
fn large() {
    has_figures(&family(Family::Large, 500), 50);
}

#[test]
fn faulty() {
    has_figures(&family(Family::Faulty, 3_000), 500);
}

#[test]
fn sequences() {
    let tally = family(Family::Sequences, 4_000);
    has_figures(&tally, 500);
    reaches(&tally, &[10, 11, 12, 13, 14, 22], 10);
}

#[test]
fn choices() {
    let tally = family(Family::Choices, 5_000);
    has_figures(&tally, 500);
    reaches(&tally, &[4, 5, 10, 11, 13, 14, 22], 5);
}

/// Of some functions the steps double until there are more states than can be gone through:
/// few, so that nothing hides there.
#[test]
fn functions() {
    let tally = compared(compare_needs, 0xbeef_0000, Family::Functions, 1_500, 1);
    has_figures(&tally, 300);
    reaches(&tally, &[5, 10, 11, 12, 14, 22, 40], 5);
    assert!(tally.said(NOT_KNOWN) <= 10, "{}", tally.text());
}

#[test]
fn limits() {
    let tally = family(Family::Limits, 1_500);
    has_figures(&tally, 200);
    reaches(&tally, &[2, 6, 22], 30);
}

#[test]
fn damaged() {
    let tally = family(Family::Damaged, 8_000);
    has_figures(&tally, 300);
    reaches(&tally, &[1, 2, 3, 4, 5, 6, 10, 11, 12, 13, 14, 22], 20);
}

#[test]
fn empty() {
    reaches(&family(Family::Empty, 3_000), &[0, 1, 2, 22], 150);
}

#[test]
fn shaped_plausible_and_words() {
    reaches(&family(Family::Shaped, 6_000), &[0, 10, 11, 22], 50);
    reaches(&family(Family::Plausible, 6_000), &[0, 1, 2, 3, 4, 5, 22], 10);
    reaches(&family(Family::Words, 3_000), &[0, 1, 2, 22], 30);
}

#[test]
fn host() {
    reaches(&family(Family::Host, 4_000), &[0, 1, 2, 3, 4, 5, 10, 11, 22], 10);
}

/// The mixture that long comparisons are made of.
#[test]
fn mixture() {
    let mut tally = Tally::default();
    for seed in 0..3_000 {
        compare_needs(Sample::mixed(seed, &NEEDED), &mut tally)
            .unwrap_or_else(|difference| panic!("{difference}"));
    }
    reaches(&tally, &[0, 1, 2, 3, 4, 5, 6, 10, 11, 12, 13, 14, 22, 40], 1);
    assert!(200 * tally.said(NOT_KNOWN) <= tally.calls(), "{}", tally.text());
}
