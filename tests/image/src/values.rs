//! The starting values of a command line: one for each register, or none where an image is
//! made without them; and the ranges of starting values.

use crate::files::named;
use second::carried::Range;

/// One value for each register, or none; or what is wrong with them for the text in this
/// file.
pub fn values_or_none(file: &str, registers: u32, given: &[&str]) -> Result<Vec<i64>, String> {
    match given {
        [] => Ok(Vec::new()),
        _ => values(file, registers, given),
    }
}

/// One value for each register; or what is wrong with them for the text in this file.
pub fn values(file: &str, registers: u32, given: &[&str]) -> Result<Vec<i64>, String> {
    let values = given.iter().map(|word| value(word)).collect::<Result<Vec<i64>, String>>()?;
    one_for_each(file, registers, values, "starting value")
}

/// One range for each register; or what is wrong with them for the text in this file.
pub fn ranges(file: &str, registers: u32, given: &[&str]) -> Result<Vec<Range>, String> {
    let ranges = given.iter().map(|word| word.parse()).collect::<Result<Vec<Range>, String>>()?;
    one_for_each(file, registers, ranges, "range")
}

fn one_for_each<T>(
    file: &str,
    registers: u32,
    given: Vec<T>,
    what: &str,
) -> Result<Vec<T>, String> {
    if given.len() == registers as usize {
        return Ok(given);
    }
    let has = format!("{} has {}", named(file), counted(registers as usize, "register"));
    let were = if given.len() == 1 { "was" } else { "were" };
    Err(format!("{has}, and {} {were} given", counted(given.len(), what)))
}

fn value(word: &str) -> Result<i64, String> {
    word.parse().map_err(|_| match is_integer(word) {
        true => {
            let range = format!("{} to {}", i64::MIN, i64::MAX);
            format!("{word} is out of range: a starting value is {range}")
        }
        false => format!("a starting value is an integer, not {word}"),
    })
}

/// Whether a word is digits, with a sign before them or none.
fn is_integer(word: &str) -> bool {
    let digits = word.strip_prefix(['-', '+']).unwrap_or(word);
    !digits.is_empty() && digits.bytes().all(|byte| byte.is_ascii_digit())
}

/// What is to be said where registers have no starting values.
pub fn missing(file: &str, registers: u32) -> Option<String> {
    let (were, them) = match registers {
        0 => return None,
        1 => ("value was", "it"),
        _ => ("values were", "them"),
    };
    let has = format!("{} has {}", named(file), counted(registers as usize, "register"));
    let words = " VALUE".repeat(registers as usize);
    Some(format!(
        "{has} and no starting {were} given; the program refuses such an input with 1. \
         To add {them}: image make {file}{words}"
    ))
}

/// `1 register`, `2 registers`.
fn counted(count: usize, what: &str) -> String {
    let plural = if count == 1 { "" } else { "s" };
    format!("{count} {what}{plural}")
}
