//! A tree as a nested list, one node a line, and words in hexadecimal: for
//! showing what differs.

use crate::kinds::{by_kind, Kind, NAMES};
use crate::node::Node;
use crate::tree::Routine;

/// What stands in place of the nodes where there are none.
pub const NO_ROUTINE: &str = "   - no routine\n";

/// The registers, then each node with its place, indented by its depth.
pub fn show(routine: &Routine) -> String {
    let mut text = format!("registers {}\n", routine.registers);
    let nodes = routine.root.preorder();
    if nodes.is_empty() {
        text += NO_ROUTINE;
    }
    for (node, depth) in nodes {
        let indent = "  ".repeat(depth as usize - 1);
        text += &format!("{:>4} {indent}{}\n", node.place(), label(node));
    }
    text
}

/// The kind's name and what its operand says.
fn label(node: Node) -> String {
    let kind = by_kind(node.kind()).name;
    let operand = node.operand();
    match node.kind() {
        Kind::Num
        | Kind::Boo
        | Kind::Id
        | Kind::DeRef
        | Kind::ValRef
        | Kind::Assign
        | Kind::Bind => format!("{kind} {operand}"),
        Kind::Call => format!("{kind} {} of {} actuals", operand % NAMES, operand / NAMES),
        Kind::Abs => format!("{kind} of {operand} Formals"),
        Kind::Formal => format!("{kind} {} of code {}", operand % NAMES, operand / NAMES),
        Kind::Binary(_)
        | Kind::Not
        | Kind::Loop
        | Kind::CSeq
        | Kind::Blk
        | Kind::Cond
        | Kind::DSeq
        | Kind::Ref => kind.to_string(),
    }
}

/// Words in hexadecimal on one line.
pub fn hexadecimal(words: &[u32]) -> String {
    words.iter().map(|word| format!("{word:x}")).collect::<Vec<_>>().join(" ")
}

/// The words of such a line, or the first piece that is no word.
pub fn from_hexadecimal(line: &str) -> Result<Vec<u32>, String> {
    let word = |piece: &str| u32::from_str_radix(piece, 16).map_err(|_| piece.to_string());
    line.split_whitespace().map(word).collect()
}
