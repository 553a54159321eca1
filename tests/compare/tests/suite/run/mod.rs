//! Runs: `pi_run` held against the second interpreter.

mod both_stacks;
mod choice_limits;
mod choices;
mod declarations;
mod differences;
mod every_change;
mod every_operator;
mod families;
mod functions;
mod host;
mod limits;
mod loops;
mod marks;
mod no_routine;
mod paper;
mod sequence_limits;
mod sequences;
mod towers;
mod work_words;
