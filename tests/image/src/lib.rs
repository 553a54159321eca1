//! Images of Π IR routines from readable nested lists, and back: an aid to try a
//! routine by hand.
//!
//! text → [`pieces`] → [`parse`] → nodes in preorder → words, with the starting
//! [`values`] behind them; [`find`] says where in the text a node or a refusal is,
//! [`run`] runs a routine, [`needs`] says what it needs at most, [`page`] is its page, line by
//! line, and [`ranges`] says between which ends it leaves registers that start within limits.
//! The other way, [`print`] writes an image down as such a text, and [`show`] as a
//! numbered tree, damaged images too. [`files`] tells texts and images apart.

pub mod codes;
pub mod files;
pub mod find;
pub mod needs;
pub mod page;
pub mod parse;
pub mod pieces;
pub mod print;
pub mod ranges;
pub mod run;
pub mod show;
pub mod stored;
pub mod values;

pub use parse::{parse, Fault, Listing};
