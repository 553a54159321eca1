//! A tree to the words of its image: n, r, the kinds, the operands.
//!
//! The nodes stand in preorder, so places follow from the shape alone and the
//! places noted in the tree are not looked at.

use crate::kinds::by_kind;
use crate::tree::Routine;

pub fn encode(routine: &Routine) -> Vec<u32> {
    let nodes = routine.root.preorder();
    let mut words = vec![nodes.len() as u32, routine.registers];
    words.extend(nodes.iter().map(|(node, _)| by_kind(node.kind()).number));
    words.extend(nodes.iter().map(|(node, _)| node.operand()));
    words
}

/// The bytes of words, each little-endian.
pub fn bytes_of(words: &[u32]) -> Vec<u8> {
    words.iter().flat_map(|word| word.to_le_bytes()).collect()
}

/// The bytes of registers: 8-byte two's complement, least byte first.
pub fn register_bytes(registers: &[i64]) -> Vec<u8> {
    registers.iter().flat_map(|value| value.to_le_bytes()).collect()
}

/// What the program reads from standard input: the image, then the starting
/// values.
pub fn program_input(image: &[u32], registers: &[i64]) -> Vec<u8> {
    [bytes_of(image), register_bytes(registers)].concat()
}
