//! The ranges of a text's routine, where its registers are known only within limits.

use crate::find::refusal_line;
use crate::parse::Listing;
use second::carried::Range;
use second::engine::pass;
use second::program::print_ranges;
use second::ranges::ends;

/// The range of each register's end, one a line, from these ranges of their starts; or the
/// refusal and where it is.
pub fn ranges_of(file: &str, listing: &Listing, starts: &[Range]) -> String {
    match pass(&listing.image()).and_then(|(routine, _)| ends(&routine, starts)) {
        Ok(ends) => print_ranges(Ok(&ends)),
        Err(refusal) => refusal_line(file, listing, refusal),
    }
}
