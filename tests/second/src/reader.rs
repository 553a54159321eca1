//! Words to tree, or the refusal with its place (the paper's "The image").
//!
//! Order of the shape checks: fewer than 2 words (1); n or r (2); length other
//! than 2 + 2n (1). With n 0 that is all. Otherwise each node in preorder: node
//! missing (5), kind (3), wrong sort of child or root (5), operand (4), depth (6).
//! Last, nodes left over (5).

use crate::kinds::{by_number, Kind, Wanted, MOST_DEPTH, MOST_NODES, MOST_REGISTERS, NAMES};
use crate::refusal::{self, Refusal};
use crate::tree::*;

/// Words 0 and 1 of an image, found to be within their ranges.
#[derive(Clone, Copy, Debug, PartialEq, Eq)]
pub struct Counts {
    pub nodes: u32,
    pub registers: u32,
}

impl Counts {
    /// n is 0 to 2,000 and r is 0 to 16, else 2.
    pub fn judge(nodes: u32, registers: u32) -> Result<Counts, Refusal> {
        if nodes > MOST_NODES || registers > MOST_REGISTERS {
            return Err(Refusal::whole(refusal::COUNTS));
        }
        Ok(Counts { nodes, registers })
    }

    /// The words of an image with these counts.
    pub fn words(self) -> usize {
        2 + 2 * self.nodes as usize
    }
}

/// Read an image.
pub fn read(image: &[u32]) -> Result<Routine, Refusal> {
    let [nodes, registers, ..] = *image else {
        return Err(Refusal::whole(refusal::LENGTH));
    };
    let counts = Counts::judge(nodes, registers)?;
    if image.len() != counts.words() {
        return Err(Refusal::whole(refusal::LENGTH));
    }
    let (kinds, operands) = image[2..].split_at(counts.nodes as usize);
    let mut reader = Reader { kinds, operands, next: 0 };
    let root = reader.root()?;
    if reader.next < kinds.len() {
        return Err(Refusal::new(refusal::TREE, reader.next as Place));
    }
    Ok(Routine { registers: counts.registers, root })
}

/// The two parallel arrays, and the next node in preorder.
struct Reader<'w> {
    kinds: &'w [u32],
    operands: &'w [u32],
    next: usize,
}

/// A node whose own checks have passed; its children come next.
struct Head {
    place: Place,
    kind: Kind,
    operand: u32,
}

impl Head {
    /// The name in "name + 64 × …".
    fn name(&self) -> Name {
        self.operand % NAMES
    }

    /// The count or type code in "name + 64 × …".
    fn above_name(&self) -> u32 {
        self.operand / NAMES
    }
}

impl Reader<'_> {
    /// All of one node's checks, in the paper's order.
    fn head(&mut self, wanted: Wanted, depth: u32) -> Result<Head, Refusal> {
        let place = self.next as Place;
        let refuse = |number| Err(Refusal::new(number, place));
        if self.next == self.kinds.len() {
            return refuse(refusal::TREE); // missing: the place is n
        }
        let Some(row) = by_number(self.kinds[self.next]) else {
            return refuse(refusal::KIND);
        };
        if !wanted.admits(row) {
            return refuse(refusal::TREE);
        }
        let operand = self.operands[self.next];
        if operand > row.greatest_operand {
            return refuse(refusal::OPERAND);
        }
        if depth > MOST_DEPTH {
            return refuse(refusal::DEPTH);
        }
        self.next += 1;
        Ok(Head { place, kind: row.kind, operand })
    }

    /// The root is an expression or a command, at depth 1; with n 0 there is none.
    fn root(&mut self) -> Result<Root, Refusal> {
        if self.kinds.is_empty() {
            return Ok(Root::Absent);
        }
        let head = self.head(Wanted::Root, 1)?;
        match head.kind {
            Kind::Assign | Kind::Loop | Kind::CSeq | Kind::Blk | Kind::Call | Kind::Cond => {
                Ok(Root::Command(self.command_of(head, 1)?))
            }
            _ => Ok(Root::Expression(self.expression_of(head, 1)?)),
        }
    }

    fn expression(&mut self, depth: u32) -> Result<Expression, Refusal> {
        let head = self.head(Wanted::Expression, depth)?;
        self.expression_of(head, depth)
    }

    fn expression_of(&mut self, head: Head, depth: u32) -> Result<Expression, Refusal> {
        let form = match head.kind {
            Kind::Num => Form::Num(head.operand),
            Kind::Boo => Form::Boo(head.operand == 1),
            Kind::Id => Form::Id(head.operand),
            Kind::DeRef => Form::DeRef(head.operand),
            Kind::ValRef => Form::ValRef(head.operand),
            Kind::Binary(operator) => {
                let left = self.expression(depth + 1)?;
                let right = self.expression(depth + 1)?;
                Form::Binary(operator, Box::new(left), Box::new(right))
            }
            Kind::Not => Form::Not(Box::new(self.expression(depth + 1)?)),
            other => unreachable!("{other:?} is no expression"),
        };
        Ok(Expression { place: head.place, form })
    }

    fn command(&mut self, depth: u32) -> Result<Command, Refusal> {
        let head = self.head(Wanted::Command, depth)?;
        self.command_of(head, depth)
    }

    fn command_of(&mut self, head: Head, depth: u32) -> Result<Command, Refusal> {
        let place = head.place;
        Ok(match head.kind {
            Kind::Assign => {
                let value = self.expression(depth + 1)?;
                Command::Assign(Assign { place, name: head.name(), value })
            }
            Kind::Loop => {
                let test = self.expression(depth + 1)?;
                let command = Box::new(self.command(depth + 1)?);
                Command::Loop(Loop { place, test, command })
            }
            Kind::CSeq => {
                let first = Box::new(self.command(depth + 1)?);
                let second = Box::new(self.command(depth + 1)?);
                Command::CSeq(CSeq { place, first, second })
            }
            Kind::Blk => Command::Blk(self.blk_of(head, depth)?),
            Kind::Call => {
                let mut actuals = Vec::new();
                for _ in 0..head.above_name() {
                    actuals.push(self.expression(depth + 1)?);
                }
                Command::Call(Call { place, name: head.name(), actuals })
            }
            Kind::Cond => {
                let test = self.expression(depth + 1)?;
                let first = Box::new(self.command(depth + 1)?);
                let second = Box::new(self.command(depth + 1)?);
                Command::Cond(Cond { place, test, first, second })
            }
            other => unreachable!("{other:?} is no command"),
        })
    }

    fn blk_of(&mut self, head: Head, depth: u32) -> Result<Blk, Refusal> {
        let declaration = self.declaration(depth + 1)?;
        let command = Box::new(self.command(depth + 1)?);
        Ok(Blk { place: head.place, declaration, command })
    }

    fn declaration(&mut self, depth: u32) -> Result<Declaration, Refusal> {
        let head = self.head(Wanted::Declaration, depth)?;
        let place = head.place;
        Ok(match head.kind {
            Kind::Bind => {
                let bound = self.bound(depth + 1)?;
                Declaration::Bind(Bind { place, name: head.name(), bound })
            }
            Kind::DSeq => {
                let first = Box::new(self.declaration(depth + 1)?);
                let second = Box::new(self.declaration(depth + 1)?);
                Declaration::DSeq(DSeq { place, first, second })
            }
            other => unreachable!("{other:?} is no declaration"),
        })
    }

    fn bound(&mut self, depth: u32) -> Result<Bound, Refusal> {
        let head = self.head(Wanted::Bound, depth)?;
        match head.kind {
            Kind::Ref => {
                let value = self.expression(depth + 1)?;
                Ok(Bound::Ref(Ref { place: head.place, value }))
            }
            Kind::Abs => Ok(Bound::Abs(self.abs_of(head, depth)?)),
            _ => Ok(Bound::Expression(self.expression_of(head, depth)?)),
        }
    }

    fn abs_of(&mut self, head: Head, depth: u32) -> Result<Abs, Refusal> {
        let mut formals = Vec::new();
        for _ in 0..head.operand {
            let formal = self.head(Wanted::Formal, depth + 1)?;
            formals.push(Formal {
                place: formal.place,
                name: formal.name(),
                code: formal.above_name(),
            });
        }
        let body = self.head(Wanted::Blk, depth + 1)?;
        let body = Box::new(self.blk_of(body, depth + 1)?);
        Ok(Abs { place: head.place, formals, body })
    }
}
