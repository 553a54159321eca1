//! The run of a text's routine, by the second interpreter.

use crate::find::refusal_line;
use crate::parse::Listing;
use second::engine::{run, MOST_BUDGET, WORK_WORDS};
use second::program::print;
use second::refusal::before_the_run;

/// What the program prints for the routine and these starting values, one for each
/// register; or the refusal of the routine and where it is.
pub fn run_of(file: &str, listing: &Listing, starts: &[i64]) -> Vec<u8> {
    let mut registers = starts.to_vec();
    let reply = run(&listing.image(), &mut registers, MOST_BUDGET, WORK_WORDS);
    match reply.refusal() {
        Some(refusal) if before_the_run(refusal.number) => {
            refusal_line(file, listing, refusal).into()
        }
        _ => print(reply, &registers),
    }
}
