//! Words that no one wrote: random ones, plausible ones, and trees of the right
//! shape whose names and types are left to chance.

use super::random::Random;
use crate::kinds::{Kind, Row, Wanted, MOST_COUNT, NAMES, TABLE};

/// Entirely random words, few of them; in one of twelve cases n is 0, r is near its
/// range and hardly a word is behind it.
pub fn random_words(random: &mut Random) -> Vec<u32> {
    let count = random.below(40);
    let mut words: Vec<u32> = (0..count).map(|_| random.word() as u32).collect();
    if random.chance(1, 12) {
        let counts = [0, random.below(20) as u32];
        words.splice(..count.min(2), counts);
        words.truncate(random.between(1, 4));
    }
    words
}

/// Words in the ranges an image has, in no order that makes a tree; one in thirteen
/// has no node.
pub fn plausible_words(random: &mut Random) -> Vec<u32> {
    let nodes = random.between(0, 12);
    let length = if random.chance(1, 10) { random.below(30) } else { 2 + 2 * nodes };
    let mut words = vec![nodes as u32, random.below(18) as u32];
    for _ in 0..nodes {
        let known = random.pick(&TABLE).number;
        words.push(if random.chance(1, 20) { random.below(45) as u32 } else { known });
    }
    for _ in 0..nodes {
        words.push(*random.pick(&[0, 0, 0, 1, 2, 63, 64, 65, 128, 511, 512, 575, 576]));
    }
    words.resize(length, 0);
    words
}

/// An image of the right shape; its names and types are left to chance.
pub fn shaped(random: &mut Random, nodes: usize) -> Vec<u32> {
    let mut kinds = Vec::new();
    let mut operands = Vec::new();
    // What is still to come, the next last; each with its depth.
    let mut wanted = vec![(Wanted::Root, 1)];
    while let Some((want, depth)) = wanted.pop() {
        let spare = nodes.saturating_sub(kinds.len() + wanted.len());
        let close = depth > 50 || spare < 4;
        let mut fitting: Vec<&Row> = TABLE.iter().filter(|row| want.admits(row)).collect();
        if close && want != Wanted::Blk {
            fitting.retain(|row| closes(row.kind));
        }
        let row = random.pick(&fitting);
        let operand = operand(random, row.kind, close);
        kinds.push(row.number);
        operands.push(operand);
        let below = children(row.kind, operand).into_iter().rev();
        wanted.extend(below.map(|want| (want, depth + 1)));
    }
    let mut words = vec![kinds.len() as u32, random.below(4) as u32];
    words.extend(kinds);
    words.extend(operands);
    words
}

/// Whether a node of this kind, with the operand it gets when the tree is to be
/// closed, takes at most one leaf below it.
fn closes(kind: Kind) -> bool {
    matches!(
        kind,
        Kind::Num
            | Kind::Boo
            | Kind::Id
            | Kind::DeRef
            | Kind::ValRef
            | Kind::Assign
            | Kind::Call
            | Kind::Bind
            | Kind::Formal
    )
}

fn operand(random: &mut Random, kind: Kind, close: bool) -> u32 {
    let name = random.below(4) as u32;
    match kind {
        Kind::Num => random.below(5) as u32,
        Kind::Boo => random.below(2) as u32,
        Kind::Id | Kind::DeRef | Kind::ValRef | Kind::Assign | Kind::Bind => name,
        Kind::Call if close => name,
        Kind::Call => name + NAMES * random.below(3) as u32,
        Kind::Abs => *random.pick(&[0, 1, 1, 2, MOST_COUNT]),
        Kind::Formal => random.below(9) as u32 + NAMES * random.below(8) as u32,
        _ => 0,
    }
}

/// What the children of a node must be.
pub(super) fn children(kind: Kind, operand: u32) -> Vec<Wanted> {
    match kind {
        Kind::Num | Kind::Boo | Kind::Id | Kind::DeRef | Kind::ValRef | Kind::Formal => vec![],
        Kind::Binary(_) => vec![Wanted::Expression; 2],
        Kind::Not | Kind::Assign | Kind::Ref => vec![Wanted::Expression],
        Kind::Loop => vec![Wanted::Expression, Wanted::Command],
        Kind::CSeq => vec![Wanted::Command; 2],
        Kind::Blk => vec![Wanted::Declaration, Wanted::Command],
        Kind::Call => vec![Wanted::Expression; (operand / NAMES) as usize],
        Kind::Cond => vec![Wanted::Expression, Wanted::Command, Wanted::Command],
        Kind::Bind => vec![Wanted::Bound],
        Kind::DSeq => vec![Wanted::Declaration; 2],
        Kind::Abs => {
            let mut all = vec![Wanted::Formal; operand as usize];
            all.push(Wanted::Blk);
            all
        }
    }
}
