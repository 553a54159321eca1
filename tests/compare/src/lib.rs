//! Holds the engine's static library and the program against the second
//! interpreter.
//!
//! [`engine`] is the engine's C interface as safe functions. A comparison, as in
//! [`check`], [`run`], [`needs`], [`page`], [`ranges`] and [`bytes`], makes one call on [`guarded`]
//! buffers full of junk ([`lent`] has those of every call), asks the second interpreter what must
//! have come of it, and answers a [`difference`] where anything is otherwise: the reply, the
//! registers, the lent page, the lists of limits, the work words, a word outside the slices.
//! [`program`] does so with a run of the program.
//! [`sample`] and [`range_sample`] make calls from the second interpreter's generators,
//! [`byte_calls`] and [`inputs`] make others from calls on bytes and from the program's inputs, and
//! [`tally`] counts what they were answered. [`progress`] is what a command line shows
//! on a terminal meanwhile.

pub mod byte_calls;
pub mod bytes;
pub mod check;
pub mod difference;
pub mod engine;
pub mod guarded;
pub mod inputs;
pub mod lent;
pub mod needs;
pub mod page;
pub mod program;
pub mod progress;
pub mod range_sample;
pub mod ranges;
pub mod run;
pub mod sample;
pub mod tally;

pub use difference::Difference;
