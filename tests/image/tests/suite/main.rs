//! The suite: trees go to text and back unchanged, faults of a text are named where
//! they are, damaged images are shown as far as they go, a text's routine is run, its needs,
//! its page and its ranges are printed, and the tables of refusals agree.

mod binary;

mod command_line;
mod faults;
mod given;
mod names;
mod needed;
mod paged;
mod ran;
mod ranged;
mod round_trip;
mod shown;
mod streams;
