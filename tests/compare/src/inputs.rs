//! The program's inputs with a change: bytes missing, too many, other ones.

use second::bytes::words;
use second::generate::random::Random;

/// The longest input that fits: 2,000 nodes and 16 registers.
pub const LONGEST_THAT_FITS: usize = 8 + 8 * 2_000 + 8 * 16;

/// An input made from this one.
pub fn changed(input: &[u8], random: &mut Random) -> Vec<u8> {
    match random.below(7) {
        0 => input[..random.below(input.len() + 1)].to_vec(),
        1 => with_more(input, random),
        2 => beyond_all_that_fit(input, random),
        3 => with_another_byte(input, random),
        4 => with_any_starting_values(input, random),
        5 => without_nodes(input),
        _ => {
            let count = random.below(64);
            random_bytes(count, random)
        }
    }
}

pub fn random_bytes(count: usize, random: &mut Random) -> Vec<u8> {
    (0..count).map(|_| random.word() as u8).collect()
}

/// A few bytes too many.
fn with_more(input: &[u8], random: &mut Random) -> Vec<u8> {
    let count = random.between(1, 16);
    [input, &random_bytes(count, random)].concat()
}

/// Longer than any input that fits, or one byte less than that.
fn beyond_all_that_fit(input: &[u8], random: &mut Random) -> Vec<u8> {
    let length = LONGEST_THAT_FITS + random.below(100);
    let count = length.saturating_sub(input.len());
    [input, &random_bytes(count, random)].concat()
}

/// One byte is another, at the beginning as often as anywhere.
pub fn with_another_byte(input: &[u8], random: &mut Random) -> Vec<u8> {
    let mut input = input.to_vec();
    if !input.is_empty() {
        let most = if random.chance(1, 2) { input.len() } else { input.len().min(16) };
        input[random.below(most)] ^= random.between(1, 255) as u8;
    }
    input
}

/// All that stands behind the image is made anew, with values of every size.
fn with_any_starting_values(input: &[u8], random: &mut Random) -> Vec<u8> {
    let (image, values) = split_image(input);
    let mut input = image.to_vec();
    for _ in values.chunks_exact(8) {
        let value = random.word() as i64 >> random.below(64);
        input.extend(value.to_le_bytes());
    }
    input
}

/// n is 0, the nodes are gone and the starting values are left: a slot with no routine,
/// if the input's counts are right.
fn without_nodes(input: &[u8]) -> Vec<u8> {
    let (image, values) = split_image(input);
    let registers = image.get(4..8).unwrap_or(&[]);
    [&[0; 4], registers, values].concat()
}

/// The image, as far as it is there, and what stands behind it.
pub fn split_image(input: &[u8]) -> (&[u8], &[u8]) {
    let nodes = words(input).first().map_or(0, |nodes| *nodes as usize);
    input.split_at(input.len().min(8 + 8 * nodes))
}
