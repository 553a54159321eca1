//! What differs between the engine and the second interpreter in one call, for
//! a reader: the call, what differs, the image as a tree and as words, and what
//! was handed over as bytes.

use second::kinds::by_number;
use second::reader::read;
use second::show::{hexadecimal, show};
use std::fmt::{Display, Formatter, Result};

#[derive(Debug)]
pub struct Difference {
    /// The call, in words.
    pub call: String,
    /// What differs, each in words; at least one.
    pub faults: Vec<String>,
    pub image: Vec<u32>,
    /// What was handed over as bytes, each with its name.
    pub bytes: Vec<(&'static str, Vec<u8>)>,
}

impl Display for Difference {
    fn fmt(&self, to: &mut Formatter) -> Result {
        writeln!(to, "{}", self.call)?;
        for fault in &self.faults {
            writeln!(to, "  {fault}")?;
        }
        match read(&self.image) {
            Ok(routine) => write!(to, "the image as a tree:\n{}", show(&routine))?,
            Err(refusal) => write!(
                to,
                "the image is no tree ({} at {}); its words:\n{}",
                refusal.number,
                refusal.place,
                listing(&self.image),
            )?,
        }
        write!(to, "the image in hexadecimal:\n{}", hexadecimal(&self.image))?;
        for (what, bytes) in &self.bytes {
            write!(to, "\n{what} byte by byte:\n{}", in_hexadecimal(bytes))?;
        }
        Ok(())
    }
}

/// Bytes in hexadecimal on one line, as `xxd -r -p` reads them.
fn in_hexadecimal(bytes: &[u8]) -> String {
    bytes.iter().map(|byte| format!("{byte:02x}")).collect::<Vec<_>>().join(" ")
}

/// The words of an image that is no tree: its counts, then a node a line as far
/// as both of its words are there.
fn listing(image: &[u32]) -> String {
    let [nodes, registers, rest @ ..] = image else {
        return format!("{image:?}\n");
    };
    let mut text = format!("nodes {nodes}, registers {registers}, {} words\n", image.len());
    let (kinds, operands) = rest.split_at(rest.len().min(*nodes as usize));
    for (place, (kind, operand)) in kinds.iter().zip(operands).enumerate() {
        let name = by_number(*kind).map_or("no kind", |row| row.name);
        text += &format!("{place:>4} kind {kind} ({name}), operand {operand}\n");
    }
    text
}
