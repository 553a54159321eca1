//! Every image of no node, of one, two and three, as far as kinds go, and of four that
//! start with a Cond; operands at the ends of each range.

use crate::helpers::{agreed, without_nodes};
use second::generate::random::Random;
use second::kinds::TABLE;

/// An image of nodes given as kind and operand.
fn image(registers: u32, nodes: &[(u32, u32)]) -> Vec<u32> {
    let mut words = vec![nodes.len() as u32, registers];
    words.extend(nodes.iter().map(|(kind, _)| kind));
    words.extend(nodes.iter().map(|(_, operand)| operand));
    words
}

/// With the words behind r that a node could have there.
#[test]
fn no_node() {
    let random = &mut Random::new(4);
    for registers in (0..48).chain([64, 257, 1 << 16, (1 << 16) + 1, 1 << 31, u32::MAX]) {
        for count in 0..=6 {
            agreed(&without_nodes(registers, count, 0), random);
            for kind in 0..44 {
                let mut words = without_nodes(registers, count.min(2), 0);
                words.resize(count, kind);
                agreed(&words, random);
            }
        }
    }
}

#[test]
fn one_node() {
    let random = &mut Random::new(1);
    let ends = [0, 1, 2, 8, 9, 15, 16, 63, 64, 511, 512, 575, 576, 1 << 31, u32::MAX];
    let kinds = (0..48).chain([64, 257, 1 << 16, (1 << 16) + 1, (1 << 31) + 1, u32::MAX]);
    for kind in kinds {
        for operand in ends {
            for registers in [0, 1, 16, 17] {
                agreed(&image(registers, &[(kind, operand)]), random);
            }
        }
    }
}

#[test]
fn two_nodes() {
    let random = &mut Random::new(2);
    for first in 0..44 {
        for second in 0..44 {
            for operands in [(0, 0), (0, 1), (1, 0), (64, 0), (64, 1), (0, 64), (1, 2)] {
                agreed(&image(1, &[(first, operands.0), (second, operands.1)]), random);
            }
        }
    }
}

/// Every row of three kinds.
fn every_three() -> impl Iterator<Item = [u32; 3]> {
    let kinds = || TABLE.iter().map(|row| row.number);
    let pairs = move || kinds().flat_map(move |first| kinds().map(move |second| [first, second]));
    pairs().flat_map(move |[first, second]| kinds().map(move |third| [first, second, third]))
}

#[test]
fn three_nodes() {
    let random = &mut Random::new(3);
    for kinds in every_three() {
        agreed(&image(1, &kinds.map(|kind| (kind, 0))), random);
    }
}

/// A Cond needs four nodes: a leaf and two Calls without actuals are its least children.
#[test]
fn a_choice_of_four_nodes() {
    let random = &mut Random::new(5);
    for kinds in every_three() {
        let [test, first, second] = kinds.map(|kind| (kind, 0));
        agreed(&image(1, &[(25, 0), test, first, second]), random);
    }
}
