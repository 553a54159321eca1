//! The program: what it prints held against the second interpreter, and against
//! text that is written down here.

mod differences;
mod failures;
mod families;
mod inputs;
mod no_routine;
mod paper;
mod refusals;
mod streams;
mod whole;
