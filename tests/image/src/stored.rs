//! Bytes as they are stored: an image, or an image with its starting values.

use second::bytes::{integers, words};
use second::reader::Counts;
use second::refusal::{Refusal, LENGTH};

/// The image and the starting values, or what the counts and the length are
/// refused with.
pub fn split(bytes: &[u8]) -> Result<(Vec<u32>, Vec<i64>), Refusal> {
    let all = words(bytes);
    let [nodes, registers, ..] = *all else {
        return Err(Refusal::whole(LENGTH));
    };
    let counts = Counts::judge(nodes, registers)?;
    let image_bytes = 4 * counts.words();
    if bytes.len() != image_bytes && bytes.len() != image_bytes + 8 * registers as usize {
        return Err(Refusal::whole(LENGTH));
    }
    Ok((all[..counts.words()].to_vec(), integers(&bytes[image_bytes..])))
}
