//! Where in a text a node stands, or the node that its routine is refused at.

use crate::codes::in_words;
use crate::files::named;
use crate::parse::Listing;
use second::engine::{check, Answer, WORK_WORDS};
use second::refusal::{self, Refusal};

/// The position of the node with this number, on one line.
pub fn find_node(file: &str, listing: &Listing, number: &str) -> Result<String, String> {
    let node = number.parse().ok().and_then(|number: usize| listing.nodes.get(number));
    match (node, listing.nodes.len()) {
        (Some(node), _) => Ok(format!("{file}:{}\n", node.position)),
        (None, 0) => Err(format!("{} has no routine, so it has no node {number}", named(file))),
        (None, 1) => Err(format!("{} has node 0 alone, not {number}", named(file))),
        (None, count) => Err(format!("{} has nodes 0 to {}, not {number}", named(file), count - 1)),
    }
}

/// What the checker says of the routine, on one line: its refusal and where that is,
/// or what it passes as.
pub fn find_refusal(file: &str, listing: &Listing) -> String {
    match check(&listing.image(), WORK_WORDS) {
        Answer::Command if listing.nodes.is_empty() => {
            format!("{file}: passes as a command (no routine)\n")
        }
        Answer::Command => format!("{file}: passes as a command\n"),
        Answer::Code(code) => {
            format!("{file}: passes with type code {code} ({})\n", in_words(code))
        }
        Answer::Refused(refusal) => refusal_line(file, listing, refusal),
    }
}

/// A refusal on one line, with where in the text it is if it has a place there.
pub fn refusal_line(file: &str, listing: &Listing, refusal: Refusal) -> String {
    let row = refusal::row_of(refusal.number);
    if !row.place_is_node {
        return format!("{file}: {row}\n");
    }
    // The shape of a text holds, so the place is one of its nodes.
    let position = listing.nodes[refusal.place as usize].position;
    format!("{file}:{position}: {row}\n")
}
