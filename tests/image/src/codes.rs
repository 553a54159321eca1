//! A type code in words.

use second::tree::Code;

/// What a value of this code is. Level 0 is a plain value; a level above is the
/// location of a cell that holds the level below.
pub fn in_words(code: Code) -> String {
    match code {
        0 => "an integer".to_string(),
        1 => "a truth".to_string(),
        _ => format!("the location of a cell that holds {}", in_words(code - 2)),
    }
}
