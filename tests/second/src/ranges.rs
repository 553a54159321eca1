//! Registers known only within limits: from a lowest and a highest start for each, a lowest
//! and a highest end, or the first refusal of 42, 43, 40, 33 to 36 and 44.

use crate::both_ways::both_ways;
use crate::carried::Range;
use crate::carrying::carry;
use crate::execution::reasons_of_room;
use crate::needs::{has_loop, MOST_STEPS};
use crate::refusal::{Refusal, CROSSED_LIMITS, LOOP, TOO_MANY_STEPS, UNSAFE_ARITHMETIC};
use crate::tree::Routine;
use std::fmt;
use std::str::FromStr;

/// The range of each register at the end of a routine that has passed, by its range at the
/// start.
pub fn ends(routine: &Routine, starts: &[Range]) -> Result<Vec<Range>, Refusal> {
    if starts.iter().any(|start| start.lowest > start.highest) {
        return Err(Refusal::whole(CROSSED_LIMITS));
    }
    if has_loop(routine) {
        return Err(Refusal::whole(LOOP));
    }
    let both = both_ways(routine, MOST_STEPS).ok_or(Refusal::whole(TOO_MANY_STEPS))?;
    if let Some(lowest) = reasons_of_room(both.room).into_iter().flatten().min() {
        return Err(Refusal::whole(lowest));
    }
    carry(routine, starts).map_err(|place| Refusal::new(UNSAFE_ARITHMETIC, place))
}

/// As it is written: `20..40`.
impl fmt::Display for Range {
    fn fmt(&self, formatter: &mut fmt::Formatter) -> fmt::Result {
        write!(formatter, "{}..{}", self.lowest, self.highest)
    }
}

/// The same, or one integer for both ends. What is wrong with it is said in a sentence.
impl FromStr for Range {
    type Err = String;

    fn from_str(text: &str) -> Result<Range, String> {
        let (lowest, highest) = text.split_once("..").unwrap_or((text, text));
        let end = |word: &str| {
            word.parse().map_err(|_| match is_integer(word) {
                true => format!("{word} is out of range: an end is {} to {}", i64::MIN, i64::MAX),
                false => format!("a range is LOWEST..HIGHEST or one integer, not {text}"),
            })
        };
        Ok(Range::new(end(lowest)?, end(highest)?))
    }
}

/// Whether a word is digits, with a sign before them or none.
fn is_integer(word: &str) -> bool {
    let digits = word.strip_prefix(['-', '+']).unwrap_or(word);
    !digits.is_empty() && digits.bytes().all(|byte| byte.is_ascii_digit())
}
