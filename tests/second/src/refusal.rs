//! The numbers the engine says no with, what each is called and says, and the
//! place each carries.

use crate::tree::Place;
use std::fmt;

/// A refusal: its number in the paper's list, and its place.
#[derive(Clone, Copy, Debug, PartialEq, Eq, Hash, PartialOrd, Ord)]
pub struct Refusal {
    pub number: u32,
    pub place: Place,
}

impl Refusal {
    pub fn new(number: u32, place: Place) -> Refusal {
        Refusal { number, place }
    }

    /// A refusal whose place is 0 by the paper: those of the image as a whole,
    /// of the host, of the run, of the needs, of the page and, but for 44, of the ranges.
    pub fn whole(number: u32) -> Refusal {
        Refusal { number, place: 0 }
    }
}

// Caused by the maker of the image.
pub const LENGTH: u32 = 1;
pub const COUNTS: u32 = 2;
pub const KIND: u32 = 3;
pub const OPERAND: u32 = 4;
pub const TREE: u32 = 5;
pub const DEPTH: u32 = 6;

// Caused by the routine's author.
pub const UNBOUND: u32 = 10;
pub const TYPE: u32 = 11;
pub const REPEATED: u32 = 12;
pub const NOT_ASSIGNABLE: u32 = 13;
pub const CALL: u32 = 14;

// Caused by the host.
pub const REGISTERS: u32 = 20;
pub const BUDGET: u32 = 21;
pub const WORK: u32 = 22;

// Caused by the run.
pub const STEPS: u32 = 30;
pub const ZERO_DIVISOR: u32 = 31;
pub const OUT_OF_RANGE: u32 = 32;
pub const CELLS: u32 = 33;
pub const BINDINGS: u32 = 34;
pub const VALUES: u32 = 35;
pub const CONTROL: u32 = 36;

// Caused by the wish for the needs, or for the ranges.
pub const TOO_MANY_STEPS: u32 = 40;

// Caused by the page that the host lends.
pub const SHORT_PAGE: u32 = 41;

// Caused by the wish for the ranges: by the host's limits, and by the routine.
pub const CROSSED_LIMITS: u32 = 42;
pub const LOOP: u32 = 43;
pub const UNSAFE_ARITHMETIC: u32 = 44;

/// Refusals 1 to 22 come before the first step: they report 0 steps and keep
/// the registers.
pub fn before_the_run(number: u32) -> bool {
    number <= WORK
}

/// One row of the table of refusals.
#[derive(Clone, Copy, Debug, PartialEq, Eq)]
pub struct Row {
    pub number: u32,
    pub name: &'static str,
    pub sentence: &'static str,
    /// Whether the place is a node; where it is none, the place is always 0.
    pub place_is_node: bool,
}

const fn at_node(number: u32, name: &'static str, sentence: &'static str) -> Row {
    Row { number, name, sentence, place_is_node: true }
}

const fn whole(number: u32, name: &'static str, sentence: &'static str) -> Row {
    Row { number, name, sentence, place_is_node: false }
}

/// Every refusal, by number.
pub const TABLE: [Row; 26] = [
    whole(LENGTH, "length", "the length does not fit the counts"),
    whole(COUNTS, "counts", "n is above 2,000, or r is above 16"),
    at_node(KIND, "kind", "no such kind of node"),
    at_node(OPERAND, "operand", "the kind does not take this operand"),
    at_node(TREE, "tree", "a node of another sort, missing or left over"),
    at_node(DEPTH, "depth", "the node is deeper than 64"),
    at_node(UNBOUND, "unbound", "the name has no binding"),
    at_node(TYPE, "type", "the node takes another type"),
    at_node(REPEATED, "repeated", "the name is declared twice"),
    at_node(NOT_ASSIGNABLE, "not assignable", "the name cannot be set"),
    at_node(CALL, "call", "no function of this name with so many Formals"),
    whole(REGISTERS, "registers", "the registers are not as many as r"),
    whole(BUDGET, "budget", "the budget is above 1,000,000"),
    whole(WORK, "work", "the work words are fewer than 8,192"),
    whole(STEPS, "steps", "the budget is used up before the routine has ended"),
    whole(ZERO_DIVISOR, "zero divisor", "a Div by zero"),
    whole(OUT_OF_RANGE, "out of range", "the result is outside -2^63 to 2^63 - 1"),
    whole(CELLS, "cells", "a 257th cell would be live"),
    whole(BINDINGS, "bindings", "a 513th binding would be live"),
    whole(VALUES, "values", "a 513th entry would be on the value stack"),
    whole(CONTROL, "control", "a 513th entry would be on the control stack"),
    whole(TOO_MANY_STEPS, "too many steps", "the steps come out above 1,000,000"),
    whole(SHORT_PAGE, "short page", "the page is shorter than 31 bytes a node"),
    whole(CROSSED_LIMITS, "crossed limits", "a lowest start is above its highest"),
    whole(LOOP, "loop", "a Loop is in the tree"),
    at_node(
        UNSAFE_ARITHMETIC,
        "unsafe arithmetic",
        "an end leaves the integers, or the divisor's range holds 0",
    ),
];

/// The row of a refusal.
pub fn row_of(number: u32) -> &'static Row {
    TABLE.iter().find(|row| row.number == number).expect("the table has every refusal")
}

/// The number and the name: `11 type`.
pub fn title(number: u32) -> String {
    format!("{number} {}", row_of(number).name)
}

/// The whole line: `11 type: the node takes another type`.
pub fn line(number: u32) -> String {
    row_of(number).to_string()
}

impl fmt::Display for Row {
    fn fmt(&self, formatter: &mut fmt::Formatter) -> fmt::Result {
        write!(formatter, "{} {}: {}", self.number, self.name, self.sentence)
    }
}
