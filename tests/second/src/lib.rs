//! The second interpreter of the Π IR routine engine.
//!
//! It is written from the paper alone, as straightforwardly as the paper reads,
//! and shares nothing with the engine it is held against. Data flows one way:
//!
//! words → [`reader`] → tree → [`checker`] → [`execution`] (states, rules,
//! limits), [`needs`] (free runs), [`page`] (the tree line by line) and [`ranges`]
//! (registers known only within limits) → [`engine`] (the host's calls) → [`bytes`] (the
//! same on bytes) and [`program`] (bytes to text).
//!
//! Beside that stand what test programs need: [`build`] to write a tree down,
//! [`encode`] to turn it into an image, [`show`] to print it, [`generate`] to make
//! cases from a seed; and for programs over these, [`command_line`] and [`streams`]
//! to try one with.

pub mod alike;
pub mod arithmetic;
pub mod both_ways;
pub mod build;
pub mod bytes;
pub mod carried;
pub mod carrying;
pub mod chain;
pub mod checker;
pub mod command_line;
pub mod effect;
pub mod encode;
pub mod engine;
pub mod execution;
pub mod free_run;
pub mod generate;
pub mod kinds;
pub mod needs;
pub mod node;
pub mod page;
pub mod program;
pub mod ranges;
pub mod reader;
pub mod refusal;
pub mod rules;
pub mod show;
pub mod state;
pub mod store;
pub mod streams;
pub mod tree;

pub use encode::encode;
pub use engine::{check, needs, page, ranges, run, Answer, Outcome, Reply};
pub use program::program;
pub use refusal::Refusal;
