//! The calls on bytes: `pi_check_bytes` and `pi_run_bytes` held against the second
//! interpreter, and against refusals that are written down here.

mod differences;
mod families;
mod host;
mod images;
mod no_routine;
mod registers;
