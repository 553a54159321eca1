//! Checks: `pi_check` held against the second interpreter.

mod choices;
mod differences;
mod every_change;
mod every_depth;
mod every_small_image;
mod every_type;
mod families;
mod no_routine;
mod paper;
mod sequences;
mod work_words;
