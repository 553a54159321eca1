//! A text to the nodes of its image, or what is wrong and where.
//!
//! `registers R`, then one list: a kind, what its operand says, its children; or `()`
//! where there is no routine. A text that is read so has the right shape; scope and
//! types are not looked at.

use crate::pieces::{pieces, Piece, Position};
use second::kinds::{Kind, Row, Wanted, CODES, MOST_COUNT, MOST_DEPTH, MOST_NODES};
use second::kinds::{MOST_REGISTERS, NAMES, TABLE};
use std::fmt;

/// What is wrong with a text, and where.
#[derive(Clone, Debug, PartialEq, Eq)]
pub struct Fault {
    pub position: Position,
    pub message: String,
}

impl fmt::Display for Fault {
    fn fmt(&self, formatter: &mut fmt::Formatter) -> fmt::Result {
        write!(formatter, "{}: {}", self.position, self.message)
    }
}

/// The nodes in preorder, each with where it begins in the text; none where there is no
/// routine.
#[derive(Clone, Debug, PartialEq, Eq)]
pub struct Listing {
    pub registers: u32,
    pub nodes: Vec<Listed>,
}

#[derive(Clone, Copy, Debug, PartialEq, Eq)]
pub struct Listed {
    pub kind: u32,
    pub operand: u32,
    pub position: Position,
}

impl Listing {
    /// The words of the image: n, r, the kinds, the operands.
    pub fn image(&self) -> Vec<u32> {
        let mut words = vec![self.nodes.len() as u32, self.registers];
        words.extend(self.nodes.iter().map(|node| node.kind));
        words.extend(self.nodes.iter().map(|node| node.operand));
        words
    }
}

/// Read a text.
pub fn parse(text: &str) -> Result<Listing, Fault> {
    let mut parser = Parser { pieces: pieces(text), next: 0, nodes: Vec::new() };
    let registers = parser.registers()?;
    parser.root()?;
    match parser.peek() {
        (Piece::End, _) => Ok(Listing { registers, nodes: parser.nodes }),
        (Piece::Close, position) => fault(position, "this `)` closes nothing"),
        (piece, position) if parser.nodes.is_empty() => {
            fault(position, format!("the text must end behind `()`, and not go on with {piece}"))
        }
        (piece, position) => fault(position, format!("the tree has ended before {piece}")),
    }
}

fn fault<T>(position: Position, message: impl Into<String>) -> Result<T, Fault> {
    Err(Fault { position, message: message.into() })
}

/// What must stand at a place, in words.
pub fn wanted_name(wanted: Wanted) -> &'static str {
    match wanted {
        Wanted::Root => "an expression or a command",
        Wanted::Expression => "an expression",
        Wanted::Command => "a command",
        Wanted::Declaration => "a declaration",
        Wanted::Bound => "an expression, Ref or Abs",
        Wanted::Formal => "a Formal",
        Wanted::Blk => "a Blk",
    }
}

/// The children of a kind whose count is fixed.
pub fn fixed_children(kind: Kind) -> &'static [Wanted] {
    use Wanted::*;
    match kind {
        Kind::Num | Kind::Boo | Kind::Id | Kind::DeRef | Kind::ValRef | Kind::Formal => &[],
        Kind::Binary(_) => &[Expression, Expression],
        Kind::Not | Kind::Assign | Kind::Ref => &[Expression],
        Kind::Loop => &[Expression, Command],
        Kind::Cond => &[Expression, Command, Command],
        Kind::CSeq => &[Command, Command],
        Kind::Blk => &[Declaration, Command],
        Kind::Bind => &[Bound],
        Kind::DSeq => &[Declaration, Declaration],
        // Their counts are in the operand.
        Kind::Call | Kind::Abs => &[],
    }
}

/// The number that this piece is the negative of, if a Num takes it.
fn negative(piece: &Piece) -> Option<u32> {
    let Piece::Word(word) = piece else { return None };
    let digits = word.strip_prefix('-')?;
    digits.parse().ok().filter(|_| digits.bytes().all(|byte| byte.is_ascii_digit()))
}

struct Parser {
    pieces: Vec<(Piece, Position)>,
    next: usize,
    nodes: Vec<Listed>,
}

impl Parser {
    /// The next piece; the end of the text is never passed.
    fn peek(&self) -> (Piece, Position) {
        self.pieces[self.next].clone()
    }

    /// Whether these pieces come next.
    fn pieces_follow(&self, wanted: &[Piece]) -> bool {
        let mut next = self.pieces[self.next..].iter();
        wanted.iter().all(|piece| next.next().is_some_and(|(found, _)| found == piece))
    }

    fn take(&mut self) -> (Piece, Position) {
        let piece = self.peek();
        if piece.0 != Piece::End {
            self.next += 1;
        }
        piece
    }

    /// A number from 0 to the greatest.
    fn number(&mut self, what: &str, greatest: u32) -> Result<u32, Fault> {
        let (piece, position) = self.take();
        let range = format!("{what} must stand here, 0 to {greatest}");
        match piece {
            Piece::Word(word) => match word.parse::<u32>() {
                Ok(number) if number <= greatest && !word.starts_with('+') => Ok(number),
                _ => fault(position, format!("{range}, not `{word}`")),
            },
            other => fault(position, format!("{range}, not {other}")),
        }
    }

    /// The number of a Num. For a negative one the fault says how it is written.
    fn plain_number(&mut self) -> Result<u32, Fault> {
        let (piece, _) = self.peek();
        self.number("a number", u32::MAX).map_err(|mut fault| {
            if let Some(number) = negative(&piece) {
                let difference = format!("(Sub (Num 0) (Num {number}))");
                fault.message += &format!("; a negative number is a difference: {difference}");
            }
            fault
        })
    }

    fn registers(&mut self) -> Result<u32, Fault> {
        match self.take() {
            (Piece::Word(word), _) if word == "registers" => {
                self.number("the count of registers", MOST_REGISTERS)
            }
            (other, position) => {
                fault(position, format!("the text begins with `registers R`, not with {other}"))
            }
        }
    }

    /// The root's list, or `()`. Only what is written says that there is no routine: a
    /// text that ends before it has a fault, which tells how that is written.
    fn root(&mut self) -> Result<(), Fault> {
        if self.pieces_follow(&[Piece::Open, Piece::Close]) {
            self.next += 2;
            return Ok(());
        }
        let ends = self.pieces_follow(&[Piece::End]);
        self.node(Wanted::Root, 1).map_err(|mut fault| {
            if ends {
                fault.message += "; where there is no routine, write `()`";
            }
            fault
        })
    }

    /// The row of the kind that a list begins with, past its parenthesis.
    fn row(&mut self) -> Result<&'static Row, Fault> {
        let (piece, position) = self.take();
        let Piece::Word(word) = piece else {
            return fault(position, format!("a kind of node must stand here, not {piece}"));
        };
        if let Some(row) = TABLE.iter().find(|row| row.name == word) {
            return Ok(row);
        }
        let alike = TABLE.iter().find(|row| row.name.eq_ignore_ascii_case(&word));
        let hint = alike.map_or(String::new(), |row| format!("; {} is", row.name));
        fault(position, format!("`{word}` is no kind of node{hint}"))
    }

    fn node(&mut self, wanted: Wanted, depth: u32) -> Result<(), Fault> {
        let (piece, position) = self.take();
        let must = format!("{} must stand here", wanted_name(wanted));
        if piece != Piece::Open {
            return fault(position, format!("{must}, not {piece}"));
        }
        let row = self.row()?;
        if !wanted.admits(row) {
            return fault(position, format!("{must}, not {}", row.name));
        }
        if depth > MOST_DEPTH {
            return fault(position, format!("depth {depth}: no tree is deeper than {MOST_DEPTH}"));
        }
        if self.nodes.len() == MOST_NODES as usize {
            return fault(position, format!("an image has no more than {MOST_NODES} nodes"));
        }
        let place = self.nodes.len();
        self.nodes.push(Listed { kind: row.number, operand: 0, position });
        self.nodes[place].operand = self.operand(row.kind)?;
        for child in fixed_children(row.kind) {
            self.child(row, position, *child, depth)?;
        }
        match row.kind {
            Kind::Call => {
                let count = self.counted(row, Wanted::Expression, depth)?;
                self.nodes[place].operand += NAMES * count;
            }
            Kind::Abs => {
                self.nodes[place].operand = self.counted(row, Wanted::Formal, depth)?;
                self.child(row, position, Wanted::Blk, depth)?;
            }
            _ => {}
        }
        self.close(row, position)
    }

    /// What the operand says, as far as it stands in the list itself.
    fn operand(&mut self, kind: Kind) -> Result<u32, Fault> {
        let name = NAMES - 1;
        match kind {
            Kind::Num => self.plain_number(),
            Kind::Boo => self.truth(),
            Kind::Id | Kind::DeRef | Kind::ValRef => self.number("a name", name),
            Kind::Assign | Kind::Call | Kind::Bind => self.number("a name", name),
            Kind::Formal => {
                let name = self.number("a name", name)?;
                Ok(name + NAMES * self.number("a type code", CODES - 1)?)
            }
            Kind::Binary(_) | Kind::Not | Kind::Loop | Kind::CSeq | Kind::Blk => Ok(0),
            Kind::Cond | Kind::DSeq | Kind::Ref | Kind::Abs => Ok(0),
        }
    }

    fn truth(&mut self) -> Result<u32, Fault> {
        let (piece, position) = self.take();
        let word = if let Piece::Word(word) = &piece { word } else { "" };
        let hint = match word {
            "true" => return Ok(1),
            "false" => return Ok(0),
            "1" => "; 1 is written true",
            "0" => "; 0 is written false",
            _ => "",
        };
        fault(position, format!("true or false must stand here, not {piece}{hint}"))
    }

    /// A child that the node must have. Where a command of a Cond is missing the fault
    /// says what its two are for.
    fn child(
        &mut self,
        of: &Row,
        begun: Position,
        wanted: Wanted,
        depth: u32,
    ) -> Result<(), Fault> {
        match self.peek() {
            (Piece::Close, position) => {
                let hint = match (of.kind, wanted) {
                    (Kind::Cond, Wanted::Command) => {
                        "; the first of its two runs if the test is true, else the second"
                    }
                    _ => "",
                };
                let missing = format!("{} of the {} at {begun}", wanted_name(wanted), of.name);
                fault(position, format!("{missing} is missing{hint}"))
            }
            _ => self.node(wanted, depth + 1),
        }
    }

    /// As many children as there are of this sort, and how many they are.
    fn counted(&mut self, of: &Row, wanted: Wanted, depth: u32) -> Result<u32, Fault> {
        let mut count = 0;
        while self.child_follows(wanted) {
            if count == MOST_COUNT {
                let (_, position) = self.peek();
                let message = format!("{} takes no more than {MOST_COUNT} of these", of.name);
                return fault(position, message);
            }
            self.node(wanted, depth + 1)?;
            count += 1;
        }
        Ok(count)
    }

    /// Whether a list of this sort comes next: any list, or one that begins with Formal.
    fn child_follows(&self, wanted: Wanted) -> bool {
        match wanted {
            Wanted::Formal => self.pieces_follow(&[Piece::Open, Piece::Word("Formal".to_string())]),
            _ => self.pieces_follow(&[Piece::Open]),
        }
    }

    fn close(&mut self, of: &Row, begun: Position) -> Result<(), Fault> {
        match self.take() {
            (Piece::Close, _) => Ok(()),
            (Piece::Open, position) => {
                fault(position, format!("the {} at {begun} has no further child", of.name))
            }
            (other, position) => {
                fault(position, format!("`)` must close the {} at {begun}, not {other}", of.name))
            }
        }
    }
}
