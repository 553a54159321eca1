//! Limits for the starts of registers: equal, narrow, wide, near the ends of the integers, and
//! now and then crossed.

use super::random::{starting_value, Random};
use crate::carried::Range;

/// A range for each of so many registers, nearly always small ones or nearly always any; one
/// list in twelve has crossed limits somewhere.
pub fn starts(random: &mut Random, count: usize) -> Vec<Range> {
    let small = random.chance(4, 5);
    let mut starts: Vec<Range> = (0..count).map(|_| start(random, small)).collect();
    if count > 0 && random.chance(1, 12) {
        let crossed = &mut starts[random.below(count)];
        if crossed.lowest == crossed.highest {
            *crossed = Range::new(1, 0);
        } else {
            (crossed.lowest, crossed.highest) = (crossed.highest, crossed.lowest);
        }
    }
    starts
}

fn start(random: &mut Random, small: bool) -> Range {
    if !small && random.chance(1, 2) {
        return near_an_end(random);
    }
    let lowest = random.below(60) as i64 - 20;
    let length = match random.below(8) {
        0 | 1 => 0,
        2..=4 => random.between(1, 20),
        5 | 6 => random.between(20, 200),
        _ => random.between(200, 1 << 20),
    };
    Range::new(lowest, lowest + length as i64)
}

/// Two notable integers, or one and its neighbour, or one alone.
fn near_an_end(random: &mut Random) -> Range {
    let one = starting_value(random, false);
    let other = match random.below(4) {
        0 => one,
        1 => one.saturating_add(1),
        _ => starting_value(random, false),
    };
    Range::new(one.min(other), one.max(other))
}

/// An integer of a range: an end, or any between.
pub fn within(random: &mut Random, range: Range) -> i64 {
    match random.below(4) {
        0 => range.lowest,
        1 => range.highest,
        _ => {
            let count = (i128::from(range.highest) - i128::from(range.lowest) + 1) as u128;
            let offset = u128::from(random.word()) % count;
            (i128::from(range.lowest) + offset as i128) as i64
        }
    }
}
