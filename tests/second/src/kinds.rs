//! The paper's table of kinds: number, kind, sort and greatest operand.
//!
//! Every operand rule of the paper is "0 to a greatest value", so one number a
//! row says it: Num takes any word, a name is at most 63, name + 64 × count at
//! most 63 + 64 × 8, name + 64 × type code at most 63 + 64 × 7.

use crate::tree::Operator;

pub const MOST_NODES: u32 = 2_000;
pub const MOST_REGISTERS: u32 = 16;
pub const MOST_DEPTH: u32 = 64;
pub const NAMES: u32 = 64;
pub const CODES: u32 = 8;
/// The most actuals of a Call and Formals of an Abs.
pub const MOST_COUNT: u32 = 8;

const NAME: u32 = NAMES - 1;

#[derive(Clone, Copy, Debug, PartialEq, Eq, Hash)]
pub enum Kind {
    Num,
    Boo,
    Id,
    Binary(Operator),
    Not,
    DeRef,
    ValRef,
    Assign,
    Loop,
    CSeq,
    Blk,
    Call,
    Cond,
    Bind,
    DSeq,
    Ref,
    Abs,
    Formal,
}

#[derive(Clone, Copy, Debug, PartialEq, Eq, Hash)]
pub enum Sort {
    Expression,
    Command,
    Declaration,
    Ref,
    Abs,
    Formal,
}

/// One row of the table.
pub struct Row {
    pub number: u32,
    pub kind: Kind,
    pub name: &'static str,
    pub sort: Sort,
    pub greatest_operand: u32,
}

const fn row(number: u32, kind: Kind, name: &'static str, sort: Sort, greatest: u32) -> Row {
    Row { number, kind, name, sort, greatest_operand: greatest }
}

pub const TABLE: [Row; 28] = [
    row(1, Kind::Num, "Num", Sort::Expression, u32::MAX),
    row(2, Kind::Boo, "Boo", Sort::Expression, 1),
    row(3, Kind::Id, "Id", Sort::Expression, NAME),
    row(4, Kind::Binary(Operator::Sum), "Sum", Sort::Expression, 0),
    row(5, Kind::Binary(Operator::Sub), "Sub", Sort::Expression, 0),
    row(6, Kind::Binary(Operator::Mul), "Mul", Sort::Expression, 0),
    row(7, Kind::Binary(Operator::Div), "Div", Sort::Expression, 0),
    row(8, Kind::Binary(Operator::Eq), "Eq", Sort::Expression, 0),
    row(9, Kind::Binary(Operator::Lt), "Lt", Sort::Expression, 0),
    row(10, Kind::Binary(Operator::Le), "Le", Sort::Expression, 0),
    row(11, Kind::Binary(Operator::Gt), "Gt", Sort::Expression, 0),
    row(12, Kind::Binary(Operator::Ge), "Ge", Sort::Expression, 0),
    row(13, Kind::Binary(Operator::And), "And", Sort::Expression, 0),
    row(14, Kind::Binary(Operator::Or), "Or", Sort::Expression, 0),
    row(15, Kind::Not, "Not", Sort::Expression, 0),
    row(16, Kind::DeRef, "DeRef", Sort::Expression, NAME),
    row(17, Kind::ValRef, "ValRef", Sort::Expression, NAME),
    row(20, Kind::Assign, "Assign", Sort::Command, NAME),
    row(21, Kind::Loop, "Loop", Sort::Command, 0),
    row(22, Kind::CSeq, "CSeq", Sort::Command, 0),
    row(23, Kind::Blk, "Blk", Sort::Command, 0),
    row(24, Kind::Call, "Call", Sort::Command, NAME + NAMES * MOST_COUNT),
    row(25, Kind::Cond, "Cond", Sort::Command, 0),
    row(30, Kind::Bind, "Bind", Sort::Declaration, NAME),
    row(31, Kind::DSeq, "DSeq", Sort::Declaration, 0),
    row(40, Kind::Ref, "Ref", Sort::Ref, 0),
    row(41, Kind::Abs, "Abs", Sort::Abs, MOST_COUNT),
    row(42, Kind::Formal, "Formal", Sort::Formal, NAME + NAMES * (CODES - 1)),
];

/// The row with this kind number, if the table has one.
pub fn by_number(number: u32) -> Option<&'static Row> {
    TABLE.iter().find(|row| row.number == number)
}

/// The row of a kind.
pub fn by_kind(kind: Kind) -> &'static Row {
    TABLE.iter().find(|row| row.kind == kind).expect("the table has every kind")
}

/// What may stand at a place of the tree: the root, or a child of some node.
#[derive(Clone, Copy, Debug, PartialEq, Eq)]
pub enum Wanted {
    /// The root: an expression or a command.
    Root,
    Expression,
    Command,
    Declaration,
    /// A Bind's child: expression, Ref or Abs.
    Bound,
    Formal,
    /// The last child of an Abs.
    Blk,
}

impl Wanted {
    pub fn admits(self, row: &Row) -> bool {
        match self {
            Wanted::Root => matches!(row.sort, Sort::Expression | Sort::Command),
            Wanted::Expression => row.sort == Sort::Expression,
            Wanted::Command => row.sort == Sort::Command,
            Wanted::Declaration => row.sort == Sort::Declaration,
            Wanted::Bound => matches!(row.sort, Sort::Expression | Sort::Ref | Sort::Abs),
            Wanted::Formal => row.sort == Sort::Formal,
            Wanted::Blk => row.kind == Kind::Blk,
        }
    }
}
