//! Scope and types (the paper's "Scope and types").
//!
//! Children left to right, then the node; the first fault decides, and its
//! place is the node judged.

use crate::chain::Chain;
use crate::refusal::{self, Refusal};
use crate::tree::*;

/// What the checker says of a routine it passes.
#[derive(Clone, Copy, Debug, PartialEq, Eq)]
pub enum Passed {
    /// The root is an expression of this code.
    Code(Code),
    /// The root is a command, or there is no node.
    Command,
}

/// What a name stands for.
#[derive(Clone, Copy)]
enum Meaning<'t> {
    Code(Code),
    Function(&'t [Formal]),
}

/// The names in scope, the newest first: inner names hide outer ones.
type Scope<'t> = Chain<(Name, Meaning<'t>)>;

/// Check a routine whose shape holds.
pub fn judge(routine: &Routine) -> Result<Passed, Refusal> {
    // Names 0 to r − 1 start as registers, code 2.
    let mut scope = Scope::empty();
    for name in 0..routine.registers {
        scope = scope.with((name, Meaning::Code(2)));
    }
    match &routine.root {
        Root::Expression(root) => expression(&scope, root).map(Passed::Code),
        Root::Command(root) => command(&scope, root).map(|()| Passed::Command),
        Root::Absent => Ok(Passed::Command),
    }
}

/// The meaning of a name. A name that has no binding stops the check with 10.
fn look<'t>(scope: &Scope<'t>, name: Name, place: Place) -> Result<Meaning<'t>, Refusal> {
    match scope.iter().find(|(bound, _)| *bound == name) {
        Some((_, meaning)) => Ok(*meaning),
        None => Err(Refusal::new(refusal::UNBOUND, place)),
    }
}

/// Pass, or the fault with this number at this place.
fn require(condition: bool, number: u32, place: Place) -> Result<(), Refusal> {
    if condition {
        Ok(())
    } else {
        Err(Refusal::new(number, place))
    }
}

fn expression(scope: &Scope, node: &Expression) -> Result<Code, Refusal> {
    let place = node.place;
    // The code of a name; a function's name in the three name forms is 11.
    let code_of = |name| match look(scope, name, place)? {
        Meaning::Code(code) => Ok(code),
        Meaning::Function(_) => Err(Refusal::new(refusal::TYPE, place)),
    };
    match &node.form {
        Form::Num(_) => Ok(0),
        Form::Boo(_) => Ok(1),
        Form::Id(name) => {
            let code = code_of(*name)?;
            Ok(if code >= 2 { code - 2 } else { code })
        }
        Form::DeRef(name) => {
            let code = code_of(*name)?;
            require(code >= 2, refusal::TYPE, place)?;
            Ok(code)
        }
        Form::ValRef(name) => {
            let code = code_of(*name)?;
            require(code >= 4, refusal::TYPE, place)?;
            Ok(code - 4)
        }
        Form::Binary(operator, left, right) => {
            let codes = (expression(scope, left)?, expression(scope, right)?);
            let (allowed, result) = match operator {
                Operator::Sum | Operator::Sub | Operator::Mul | Operator::Div => {
                    (codes == (0, 0), 0)
                }
                Operator::Lt | Operator::Le | Operator::Gt | Operator::Ge => (codes == (0, 0), 1),
                Operator::Eq => (codes == (0, 0) || codes == (1, 1), 1),
                Operator::And | Operator::Or => (codes == (1, 1), 1),
            };
            require(allowed, refusal::TYPE, place)?;
            Ok(result)
        }
        Form::Not(operand) => {
            let code = expression(scope, operand)?;
            require(code == 1, refusal::TYPE, place)?;
            Ok(1)
        }
    }
}

fn command<'t>(scope: &Scope<'t>, node: &'t Command) -> Result<(), Refusal> {
    match node {
        Command::Assign(assign) => {
            let value = expression(scope, &assign.value)?;
            let code = match look(scope, assign.name, assign.place)? {
                Meaning::Code(code @ (2 | 3)) => code,
                _ => return Err(Refusal::new(refusal::NOT_ASSIGNABLE, assign.place)),
            };
            require(value == code - 2, refusal::TYPE, assign.place)
        }
        Command::Loop(node) => {
            let test = expression(scope, &node.test)?;
            command(scope, &node.command)?;
            require(test == 1, refusal::TYPE, node.place)
        }
        Command::CSeq(node) => {
            command(scope, &node.first)?;
            command(scope, &node.second)
        }
        Command::Blk(node) => blk(scope, node),
        Command::Call(node) => call(scope, node),
        Command::Cond(node) => {
            // Both commands are judged, taken or not, and before the Cond itself.
            let test = expression(scope, &node.test)?;
            command(scope, &node.first)?;
            command(scope, &node.second)?;
            require(test == 1, refusal::TYPE, node.place)
        }
    }
}

fn call(scope: &Scope, node: &Call) -> Result<(), Refusal> {
    let mut codes = Vec::new();
    for actual in &node.actuals {
        codes.push(expression(scope, actual)?);
    }
    let formals = match look(scope, node.name, node.place)? {
        Meaning::Function(formals) if formals.len() == codes.len() => formals,
        _ => return Err(Refusal::new(refusal::CALL, node.place)),
    };
    let equal = formals.iter().zip(&codes).all(|(formal, code)| formal.code == *code);
    require(equal, refusal::TYPE, node.place)
}

fn blk<'t>(scope: &Scope<'t>, node: &'t Blk) -> Result<(), Refusal> {
    let declared = declaration(scope, &node.declaration)?;
    command(&scope.joined(&declared), &node.command)
}

/// The names a declaration gives, with their meanings.
fn declaration<'t>(scope: &Scope<'t>, node: &'t Declaration) -> Result<Scope<'t>, Refusal> {
    match node {
        Declaration::Bind(node) => {
            let meaning = match &node.bound {
                Bound::Expression(value) => Meaning::Code(expression(scope, value)?),
                Bound::Ref(node) => {
                    let code = expression(scope, &node.value)?;
                    require(code <= 5, refusal::TYPE, node.place)?;
                    Meaning::Code(code + 2)
                }
                Bound::Abs(node) => {
                    abs(scope, node)?;
                    Meaning::Function(&node.formals)
                }
            };
            Ok(Scope::empty().with((node.name, meaning)))
        }
        Declaration::DSeq(node) => {
            // The second declaration sees the names of the first, which hide
            // those around the DSeq; the first does not see the second's.
            let first = declaration(scope, &node.first)?;
            let second = declaration(&scope.joined(&first), &node.second)?;
            let on_both = first.iter().any(|(name, _)| has(&second, *name));
            require(!on_both, refusal::REPEATED, node.place)?;
            Ok(first.joined(&second))
        }
    }
}

/// An Abs: its Blk sees the names around the Bind, then the Formals; not its
/// own name.
fn abs<'t>(scope: &Scope<'t>, node: &'t Abs) -> Result<(), Refusal> {
    let mut formals = Scope::empty();
    for formal in &node.formals {
        require(!has(&formals, formal.name), refusal::REPEATED, formal.place)?;
        formals = formals.with((formal.name, Meaning::Code(formal.code)));
    }
    blk(&scope.joined(&formals), &node.body)
}

fn has(scope: &Scope, name: Name) -> bool {
    scope.iter().any(|(bound, _)| *bound == name)
}
