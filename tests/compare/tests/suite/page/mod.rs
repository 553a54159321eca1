//! Pages: `pi_page` held against the second interpreter.

mod differences;
mod every_change;
mod families;
mod lengths;
mod no_routine;
mod numbers;
mod stored;
mod work_words;
