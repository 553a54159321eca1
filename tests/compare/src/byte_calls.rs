//! Calls on bytes: a case laid out as bytes, and calls made from it with other
//! lengths, other bytes, another budget and other work words.

use crate::inputs::{random_bytes, with_another_byte};
use second::encode::{bytes_of, register_bytes};
use second::engine::{MOST_BUDGET, WORK_WORDS};
use second::generate::random::Random;
use second::generate::Case;

/// One call of a byte form. A check takes the image and the work words alone.
#[derive(Clone, Debug, PartialEq, Eq)]
pub struct ByteCall {
    pub image: Vec<u8>,
    pub registers: Vec<u8>,
    pub budget: u64,
    pub work_length: usize,
}

/// The bytes of an image of 2,000 nodes.
pub const LARGEST_IMAGE: usize = 8 + 8 * 2_000;

/// Budgets and lengths of the work slice on both sides of their limits.
pub const NEAR_BUDGETS: [u64; 6] =
    [0, MOST_BUDGET - 1, MOST_BUDGET, MOST_BUDGET + 1, (1 << 32) + 1, u64::MAX];
pub const NEAR_WORK: [usize; 6] =
    [0, 1, WORK_WORDS - 1, WORK_WORDS, WORK_WORDS + 1, WORK_WORDS + 1_000];

impl ByteCall {
    pub fn of(case: &Case) -> ByteCall {
        ByteCall {
            image: bytes_of(&case.image),
            registers: register_bytes(&case.registers),
            budget: case.budget,
            work_length: case.work_length,
        }
    }

    /// A call with one change or more: mostly of the image, then of the registers.
    pub fn changed(&self, random: &mut Random) -> ByteCall {
        let mut call = self.clone();
        while call == *self {
            if random.chance(2, 3) {
                call.image = other_image(&self.image, random);
            }
            if random.chance(1, 2) {
                call.registers = other_registers(&self.registers, random);
            }
            if random.chance(1, 4) {
                call.budget = *random.pick(&NEAR_BUDGETS);
            }
            if random.chance(1, 6) {
                call.work_length = *random.pick(&NEAR_WORK);
            }
        }
        call
    }
}

/// An image of another length, or with other bytes.
fn other_image(image: &[u8], random: &mut Random) -> Vec<u8> {
    match random.below(9) {
        0 => image[..random.below(image.len() + 1)].to_vec(),
        1 => image[..random.below(image.len().min(24) + 1)].to_vec(),
        2 => image[..image.len().saturating_sub(random.between(1, 9))].to_vec(),
        3 => {
            let more = random.between(1, 16);
            [image, &random_bytes(more, random)].concat()
        }
        4 => beyond_the_largest(image, random),
        5 => with_another_count(image, random),
        6 => with_a_fitting_length(image, random),
        7 => with_another_byte(image, random),
        _ => {
            let count = random.below(64);
            random_bytes(count, random)
        }
    }
}

/// As long as the largest image or longer, by a few bytes or by many.
fn beyond_the_largest(image: &[u8], random: &mut Random) -> Vec<u8> {
    let more = *random.pick(&[0, 1, 2, 3, 4, 8, 9, 1_000, LARGEST_IMAGE]);
    let count = (LARGEST_IMAGE + more).saturating_sub(image.len());
    [image, &random_bytes(count, random)].concat()
}

/// Another n or r, at a limit or anywhere; the length stays.
fn with_another_count(image: &[u8], random: &mut Random) -> Vec<u8> {
    const NODES: [u32; 8] = [0, 1, 1_999, 2_000, 2_001, 1 << 29, (1 << 29) + 1, u32::MAX];
    const REGISTERS: [u32; 6] = [0, 15, 16, 17, 256, u32::MAX];
    let nodes = random.chance(1, 2);
    let count = *if nodes { random.pick(&NODES) } else { random.pick(&REGISTERS) };
    let mut image = image.to_vec();
    let place = if nodes { 0 } else { 4 };
    if let Some(bytes) = image.get_mut(place..place + 4) {
        bytes.copy_from_slice(&count.to_le_bytes());
    }
    image
}

/// Another n and the length that fits it: nodes are missing, left over or others, or
/// there is none.
fn with_a_fitting_length(image: &[u8], random: &mut Random) -> Vec<u8> {
    let nodes = match random.below(8) {
        0 => *random.pick(&[1_999, 2_000, 2_001]),
        1 => 0,
        _ => random.between(1, image.len() / 8 + 3),
    };
    let mut image = image.to_vec();
    image.resize(8 + 8 * nodes, random.below(3) as u8);
    image[..4].copy_from_slice(&(nodes as u32).to_le_bytes());
    image
}

/// Register bytes of another length, or as many with other values.
fn other_registers(registers: &[u8], random: &mut Random) -> Vec<u8> {
    let whole = registers.len();
    let length = match random.below(6) {
        0 => whole,
        1 => 0,
        2 => whole.saturating_sub(random.between(1, 8)),
        3 => whole + random.between(1, 8),
        4 => 8 * random.below(19),
        _ => random.below(8 * 19),
    };
    random_bytes(length, random)
}
