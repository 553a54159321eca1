//! Needs: `pi_needs` held against the second interpreter.

mod differences;
mod every_change;
mod families;
mod numbers;
mod runs;
mod work_words;
