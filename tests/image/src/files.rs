//! Files by what they hold: a text or an image.
//!
//! No bytes are both. The words n and r of an image are at most 2,000 and 16, so
//! it has bytes that are 0, and a text has none.

use crate::parse::Fault;
use crate::pieces::{pieces, Piece, Position};
use second::bytes::words;
use second::reader::Counts;
use std::fs::File;
use std::io::Read;

/// A file in a sentence: `-` is standard input.
pub fn named(file: &str) -> &str {
    match file {
        "-" => "standard input",
        _ => file,
    }
}

/// More bytes than any image or text has; an endless file is not read to its end.
const MOST_BYTES: u64 = 1 << 24;

/// The whole file.
fn bytes(file: &str) -> Result<Vec<u8>, String> {
    let mut bytes = Vec::new();
    let read = match file {
        "-" => std::io::stdin().take(MOST_BYTES).read_to_end(&mut bytes),
        _ => File::open(file).and_then(|file| file.take(MOST_BYTES).read_to_end(&mut bytes)),
    };
    match read {
        Ok(length) if length as u64 == MOST_BYTES => {
            Err(format!("{} is longer than any text or image", named(file)))
        }
        Ok(_) => Ok(bytes),
        Err(error) => Err(format!("{}: {error}", named(file))),
    }
}

/// A file that must be a text.
pub fn text(file: &str) -> Result<String, String> {
    let bytes = bytes(file)?;
    if is_image(&bytes) {
        return Err(format!(
            "{} is an image, not a text; `image text {file}` makes a text of it",
            named(file)
        ));
    }
    decoded(bytes).map_err(|fault| format!("{file}:{fault}"))
}

/// The bytes of a file that must be an image, which may be damaged.
pub fn image(file: &str) -> Result<Vec<u8>, String> {
    let bytes = bytes(file)?;
    if is_text(&bytes) {
        return Err(format!(
            "{} is a text, not an image; `image make {file}` makes its image",
            named(file)
        ));
    }
    Ok(bytes)
}

/// Whether these bytes begin with the counts of an image.
pub fn is_image(bytes: &[u8]) -> bool {
    match *words(bytes) {
        [nodes, registers, ..] => Counts::judge(nodes, registers).is_ok(),
        _ => false,
    }
}

/// Whether these bytes are a text by its first word.
pub fn is_text(bytes: &[u8]) -> bool {
    match decoded(bytes.to_vec()) {
        Ok(text) => pieces(&text)[0].0 == Piece::Word("registers".to_string()),
        Err(_) => false,
    }
}

/// The characters of these bytes, or where they are none of a text.
fn decoded(bytes: Vec<u8>) -> Result<String, Fault> {
    let text = String::from_utf8(bytes).map_err(|error| {
        let valid = &error.as_bytes()[..error.utf8_error().valid_up_to()];
        let position = Position::behind(&String::from_utf8_lossy(valid));
        Fault { position, message: "this is not UTF-8, as a text must be".to_string() }
    })?;
    match text.find('\0') {
        None => Ok(text),
        Some(length) => {
            let position = Position::behind(&text[..length]);
            Err(Fault { position, message: "a byte 0 stands here; a text has none".to_string() })
        }
    }
}
