//! The needs of a text's routine, before it is loaded.

use crate::files::named;
use crate::find::refusal_line;
use crate::parse::Listing;
use second::engine::{needs, WORK_WORDS};
use second::needs::{Needs, EFFORT};
use second::program::print_needs;

/// The figures, one a line, or the refusal and where it is; and what is to be said
/// beside it.
pub fn needs_of(file: &str, listing: &Listing) -> (String, Option<String>) {
    match needs(&listing.image(), WORK_WORDS, EFFORT) {
        Needs::Refused(refusal) => (refusal_line(file, listing, refusal), None),
        figures @ Needs::Figures(_) => (print_needs(figures), None),
        some @ Needs::AtLeast(_) => {
            let more = "has more runs, or longer ones, than are gone through";
            let note = format!("{} {more}; some reach what is printed", named(file));
            (print_needs(some), Some(note))
        }
    }
}
