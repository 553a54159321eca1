//! The tree of a routine. Each node carries its place, its number in preorder.
//!
//! The node names are the paper's. A `Blk` is a type of its own, because an
//! `Abs` holds a `Blk` and no other command.

/// The number of a node in preorder.
pub type Place = u32;

/// A name, 0 to 63.
pub type Name = u32;

/// A type code, base + 2 × level: base 0 integer, 1 boolean; level 0 to 3.
pub type Code = u32;

/// What the reader makes of an image: the count of registers and the tree.
#[derive(Clone, Debug, PartialEq, Eq)]
pub struct Routine {
    pub registers: u32,
    pub root: Root,
}

#[derive(Clone, Debug, PartialEq, Eq)]
pub enum Root {
    Expression(Expression),
    Command(Command),
    /// There is no node, as in a slot with no routine: a command with no rule to
    /// apply.
    Absent,
}

#[derive(Clone, Debug, PartialEq, Eq)]
pub struct Expression {
    pub place: Place,
    pub form: Form,
}

#[derive(Clone, Debug, PartialEq, Eq)]
pub enum Form {
    Num(u32),
    Boo(bool),
    Id(Name),
    DeRef(Name),
    ValRef(Name),
    Binary(Operator, Box<Expression>, Box<Expression>),
    Not(Box<Expression>),
}

#[derive(Clone, Copy, Debug, PartialEq, Eq, Hash)]
pub enum Operator {
    Sum,
    Sub,
    Mul,
    Div,
    Eq,
    Lt,
    Le,
    Gt,
    Ge,
    And,
    Or,
}

#[derive(Clone, Debug, PartialEq, Eq)]
pub enum Command {
    Assign(Assign),
    Loop(Loop),
    CSeq(CSeq),
    Blk(Blk),
    Call(Call),
    Cond(Cond),
}

#[derive(Clone, Debug, PartialEq, Eq)]
pub struct Assign {
    pub place: Place,
    pub name: Name,
    pub value: Expression,
}

#[derive(Clone, Debug, PartialEq, Eq)]
pub struct Loop {
    pub place: Place,
    pub test: Expression,
    pub command: Box<Command>,
}

#[derive(Clone, Debug, PartialEq, Eq)]
pub struct CSeq {
    pub place: Place,
    pub first: Box<Command>,
    pub second: Box<Command>,
}

#[derive(Clone, Debug, PartialEq, Eq)]
pub struct Blk {
    pub place: Place,
    pub declaration: Declaration,
    pub command: Box<Command>,
}

#[derive(Clone, Debug, PartialEq, Eq)]
pub struct Call {
    pub place: Place,
    pub name: Name,
    pub actuals: Vec<Expression>,
}

#[derive(Clone, Debug, PartialEq, Eq)]
pub struct Cond {
    pub place: Place,
    pub test: Expression,
    pub first: Box<Command>,
    pub second: Box<Command>,
}

#[derive(Clone, Debug, PartialEq, Eq)]
pub enum Declaration {
    Bind(Bind),
    DSeq(DSeq),
}

#[derive(Clone, Debug, PartialEq, Eq)]
pub struct Bind {
    pub place: Place,
    pub name: Name,
    pub bound: Bound,
}

/// What a Bind binds its name to.
#[derive(Clone, Debug, PartialEq, Eq)]
pub enum Bound {
    Expression(Expression),
    Ref(Ref),
    Abs(Abs),
}

#[derive(Clone, Debug, PartialEq, Eq)]
pub struct DSeq {
    pub place: Place,
    pub first: Box<Declaration>,
    pub second: Box<Declaration>,
}

#[derive(Clone, Debug, PartialEq, Eq)]
pub struct Ref {
    pub place: Place,
    pub value: Expression,
}

#[derive(Clone, Debug, PartialEq, Eq)]
pub struct Abs {
    pub place: Place,
    pub formals: Vec<Formal>,
    pub body: Box<Blk>,
}

#[derive(Clone, Debug, PartialEq, Eq)]
pub struct Formal {
    pub place: Place,
    pub name: Name,
    pub code: Code,
}
