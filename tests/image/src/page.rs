//! The page of a text's routine, as the contract's annex prints it.

use crate::find::refusal_line;
use crate::parse::Listing;
use second::engine::pass;
use second::page::lines_of;

/// The lines, one a node, or the refusal and where it is.
pub fn page_of(file: &str, listing: &Listing) -> String {
    match pass(&listing.image()) {
        Ok((routine, _)) => lines_of(&routine),
        Err(refusal) => refusal_line(file, listing, refusal),
    }
}
