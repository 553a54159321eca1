//! The host's calls on bytes: `check` and `run` with the image as little-endian
//! words and each register as 8 bytes in two's complement, least byte first.
//!
//! A length that counts bytes is judged where the length in words is: fewer than 8
//! bytes (1); n or r (2); an image length other than 8 + 8n (1). Register bytes
//! other than 8r are 20.

use crate::encode::register_bytes;
use crate::engine::{self, Answer, Reply, MOST_BUDGET, WORK_WORDS};
use crate::reader::Counts;
use crate::refusal::{self, Refusal};
use crate::tree::Routine;

/// The bytes of n and r.
const COUNT_BYTES: usize = 8;
/// The bytes of a register.
const REGISTER_BYTES: usize = 8;

/// The checker alone tests 22, then the image.
pub fn check(image: &[u8], work_length: usize) -> Answer {
    if work_length < WORK_WORDS {
        return Answer::Refused(Refusal::whole(refusal::WORK));
    }
    match whole_image(image) {
        Ok(words) => engine::check(&words, work_length),
        Err(refusal) => Answer::Refused(refusal),
    }
}

/// A run tests 22, 21, the image, 20, then steps. 1 to 22 keep the register bytes.
pub fn run(image: &[u8], registers: &mut [u8], budget: u64, work_length: usize) -> Reply {
    match passed(image, registers.len(), budget, work_length) {
        Ok(routine) => {
            let mut values = integers(registers);
            let reply = engine::run_passed(&routine, &mut values, budget);
            registers.copy_from_slice(&register_bytes(&values));
            reply
        }
        Err(refusal) => Reply::refused(refusal),
    }
}

/// The routine of a call that nothing refuses before its first step.
fn passed(
    image: &[u8],
    registers_length: usize,
    budget: u64,
    work_length: usize,
) -> Result<Routine, Refusal> {
    if work_length < WORK_WORDS {
        return Err(Refusal::whole(refusal::WORK));
    }
    if budget > MOST_BUDGET {
        return Err(Refusal::whole(refusal::BUDGET));
    }
    let (routine, _) = engine::pass(&whole_image(image)?)?;
    if registers_length != REGISTER_BYTES * routine.registers as usize {
        return Err(Refusal::whole(refusal::REGISTERS));
    }
    Ok(routine)
}

/// The words of bytes that have the length of an image, else 1 or 2.
pub fn whole_image(bytes: &[u8]) -> Result<Vec<u32>, Refusal> {
    if bytes.len() < COUNT_BYTES {
        return Err(Refusal::whole(refusal::LENGTH));
    }
    let counts = words(&bytes[..COUNT_BYTES]);
    let counts = Counts::judge(counts[0], counts[1])?;
    if bytes.len() != COUNT_BYTES + 8 * counts.nodes as usize {
        return Err(Refusal::whole(refusal::LENGTH));
    }
    Ok(words(bytes))
}

/// Little-endian words. Bytes at the end that make no whole word are left out.
pub fn words(bytes: &[u8]) -> Vec<u32> {
    let word = |four: &[u8]| u32::from_le_bytes(four.try_into().expect("four bytes"));
    bytes.chunks_exact(4).map(word).collect()
}

/// Registers from their bytes. Bytes at the end that make no whole register are
/// left out.
pub fn integers(bytes: &[u8]) -> Vec<i64> {
    let integer = |eight: &[u8]| i64::from_le_bytes(eight.try_into().expect("eight bytes"));
    bytes.chunks_exact(REGISTER_BYTES).map(integer).collect()
}
