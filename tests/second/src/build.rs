//! Trees written down by hand: one function a kind, named as the paper names
//! the kind. Places are left 0; they follow from the shape when the tree is
//! encoded and read.

use crate::encode::encode;
use crate::tree::*;

fn expression(form: Form) -> Expression {
    Expression { place: 0, form }
}

pub fn num(number: u32) -> Expression {
    expression(Form::Num(number))
}

pub fn boo(truth: bool) -> Expression {
    expression(Form::Boo(truth))
}

pub fn id(name: Name) -> Expression {
    expression(Form::Id(name))
}

pub fn deref(name: Name) -> Expression {
    expression(Form::DeRef(name))
}

pub fn valref(name: Name) -> Expression {
    expression(Form::ValRef(name))
}

pub fn binary(operator: Operator, left: Expression, right: Expression) -> Expression {
    expression(Form::Binary(operator, Box::new(left), Box::new(right)))
}

pub fn sum(left: Expression, right: Expression) -> Expression {
    binary(Operator::Sum, left, right)
}

pub fn sub(left: Expression, right: Expression) -> Expression {
    binary(Operator::Sub, left, right)
}

pub fn mul(left: Expression, right: Expression) -> Expression {
    binary(Operator::Mul, left, right)
}

pub fn div(left: Expression, right: Expression) -> Expression {
    binary(Operator::Div, left, right)
}

pub fn eq(left: Expression, right: Expression) -> Expression {
    binary(Operator::Eq, left, right)
}

pub fn lt(left: Expression, right: Expression) -> Expression {
    binary(Operator::Lt, left, right)
}

pub fn gt(left: Expression, right: Expression) -> Expression {
    binary(Operator::Gt, left, right)
}

pub fn and(left: Expression, right: Expression) -> Expression {
    binary(Operator::And, left, right)
}

pub fn or(left: Expression, right: Expression) -> Expression {
    binary(Operator::Or, left, right)
}

pub fn not(operand: Expression) -> Expression {
    expression(Form::Not(Box::new(operand)))
}

pub fn assign(name: Name, value: Expression) -> Command {
    Command::Assign(Assign { place: 0, name, value })
}

pub fn repeat(test: Expression, command: Command) -> Command {
    Command::Loop(Loop { place: 0, test, command: Box::new(command) })
}

pub fn cseq(first: Command, second: Command) -> Command {
    Command::CSeq(CSeq { place: 0, first: Box::new(first), second: Box::new(second) })
}

/// Commands one after another, nested to the right.
pub fn commands(mut all: Vec<Command>) -> Command {
    let last = all.pop().expect("at least one command");
    all.into_iter().rev().fold(last, |rest, command| cseq(command, rest))
}

pub fn block(declaration: Declaration, command: Command) -> Blk {
    Blk { place: 0, declaration, command: Box::new(command) }
}

pub fn blk(declaration: Declaration, command: Command) -> Command {
    Command::Blk(block(declaration, command))
}

pub fn call(name: Name, actuals: Vec<Expression>) -> Command {
    Command::Call(Call { place: 0, name, actuals })
}

pub fn cond(test: Expression, first: Command, second: Command) -> Command {
    Command::Cond(Cond { place: 0, test, first: Box::new(first), second: Box::new(second) })
}

/// Bind to an expression.
pub fn bind(name: Name, value: Expression) -> Declaration {
    Declaration::Bind(Bind { place: 0, name, bound: Bound::Expression(value) })
}

/// Bind to a Ref: a new cell.
pub fn bind_ref(name: Name, value: Expression) -> Declaration {
    Declaration::Bind(Bind { place: 0, name, bound: Bound::Ref(Ref { place: 0, value }) })
}

/// Bind to an Abs: a function. Each formal is its name and its type code.
pub fn bind_abs(name: Name, formals: &[(Name, Code)], body: Blk) -> Declaration {
    let formals = formals.iter().map(|&(name, code)| Formal { place: 0, name, code }).collect();
    let abs = Abs { place: 0, formals, body: Box::new(body) };
    Declaration::Bind(Bind { place: 0, name, bound: Bound::Abs(abs) })
}

pub fn dseq(first: Declaration, second: Declaration) -> Declaration {
    Declaration::DSeq(DSeq { place: 0, first: Box::new(first), second: Box::new(second) })
}

/// Declarations joined by DSeqs into a tree as shallow as can be.
pub fn declarations(mut all: Vec<Declaration>) -> Declaration {
    if all.len() == 1 {
        return all.remove(0);
    }
    let second = all.split_off(all.len() / 2);
    dseq(declarations(all), declarations(second))
}

/// No tree: a slot with no routine.
pub fn absent() -> Root {
    Root::Absent
}

impl From<Expression> for Root {
    fn from(root: Expression) -> Root {
        Root::Expression(root)
    }
}

impl From<Command> for Root {
    fn from(root: Command) -> Root {
        Root::Command(root)
    }
}

/// A routine with this many registers.
pub fn routine(registers: u32, root: impl Into<Root>) -> Routine {
    Routine { registers, root: root.into() }
}

/// The image of a routine with this many registers.
pub fn image(registers: u32, root: impl Into<Root>) -> Vec<u32> {
    encode(&routine(registers, root))
}

/// The paper's factorial loop: registers z and y are names 0 and 1.
pub fn factorial() -> Command {
    const Z: Name = 0;
    const Y: Name = 1;
    repeat(
        not(eq(id(Y), num(0))),
        cseq(assign(Z, mul(id(Z), id(Y))), assign(Y, sub(id(Y), num(1)))),
    )
}
