//! Images with no node, as a host has them for a slot with no routine; and images
//! near them: words left behind r, counts that do not fit, words missing.

use super::random::Random;
use super::well_typed::Temper;
use super::well_typed_routine;
use crate::build::{absent, image};
use crate::encode;
use crate::kinds::MOST_REGISTERS;

/// An image with no node.
pub fn without_nodes(random: &mut Random) -> Vec<u32> {
    image(registers(random), absent())
}

/// An image with no node, or one near it.
pub fn near_empty(random: &mut Random) -> Vec<u32> {
    match random.below(15) {
        0..=5 => without_nodes(random),
        6..=8 => with_words_behind(random),
        9 | 10 => with_a_tree_behind(random),
        11 | 12 => with_too_many_registers(random),
        13 => with_nodes_missing(random),
        // n alone, or nothing.
        _ => vec![0; random.below(2)],
    }
}

fn registers(random: &mut Random) -> u32 {
    random.between(0, MOST_REGISTERS as usize) as u32
}

/// Words that may be kinds or operands, up to so many.
fn any_words(random: &mut Random, most: usize) -> Vec<u32> {
    let count = random.between(0, most);
    (0..count).map(|_| random.word() as u32 >> random.below(32)).collect()
}

/// n is 0, and one to six words are behind r.
fn with_words_behind(random: &mut Random) -> Vec<u32> {
    let mut words = without_nodes(random);
    words.push(random.below(43) as u32);
    words.extend(any_words(random, 5));
    words
}

/// The n of a tree is 0, and its words are left.
fn with_a_tree_behind(random: &mut Random) -> Vec<u32> {
    let mut words = encode(&well_typed_routine(random, 10, Temper::Calm));
    words[0] = 0;
    words
}

/// n is 0, and r is above 16, with words behind it or none.
fn with_too_many_registers(random: &mut Random) -> Vec<u32> {
    let any = random.word() as u32;
    let mut words = vec![0, *random.pick(&[17, 18, 64, 1 << 31, u32::MAX, any | 32])];
    words.extend(any_words(random, 2));
    words
}

/// One node or two are counted, and none is there, or a part of one.
fn with_nodes_missing(random: &mut Random) -> Vec<u32> {
    let mut words = vec![random.between(1, 2) as u32, registers(random)];
    words.extend(any_words(random, 1));
    words
}
