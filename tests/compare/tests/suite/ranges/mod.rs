//! Ranges: `pi_ranges` held against the second interpreter.

mod deep;
mod differences;
mod every_change;
mod families;
mod lengths;
mod no_routine;
mod numbers;
mod work_words;
