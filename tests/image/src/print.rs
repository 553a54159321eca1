//! An image as a text that [`crate::parse`] reads.

use second::kinds::{by_kind, Kind, NAMES};
use second::node::Node;
use second::tree::Routine;

/// No line is longer, as far as the indent leaves room.
const WIDTH: usize = 80;

/// `registers R`, then the tree: a node on one line if it fits, else its children
/// each on a line of its own; or `()` where there is no routine.
pub fn print(routine: &Routine) -> String {
    let mut text = format!("registers {}\n", routine.registers);
    match routine.root.node() {
        Some(node) => write(&mut text, node, 0, 0),
        None => text += "()",
    }
    text.push('\n');
    text
}

/// One node and all below it, where so many parentheses of nodes around it close
/// behind it.
fn write(text: &mut String, node: Node, indent: usize, closing: usize) {
    let room = WIDTH.saturating_sub(indent + closing);
    if let Some(line) = on_one_line(node, room) {
        *text += &line;
        return;
    }
    *text += &head(node);
    let children = node.children();
    let last = children.len().saturating_sub(1);
    for (index, child) in children.into_iter().enumerate() {
        *text += &format!("\n{}", " ".repeat(indent + 2));
        write(text, child, indent + 2, if index == last { closing + 1 } else { 0 });
    }
    text.push(')');
}

/// The whole node on one line, if it is no longer than this.
fn on_one_line(node: Node, room: usize) -> Option<String> {
    let mut line = head(node);
    for child in node.children() {
        line.push(' ');
        line += &on_one_line(child, room.checked_sub(line.len())?)?;
    }
    line.push(')');
    Some(line).filter(|line| line.len() <= room)
}

/// The parenthesis, the kind and what the operand says beside the children's count.
fn head(node: Node) -> String {
    let operand = node.operand();
    let said = match node.kind() {
        Kind::Num | Kind::Id | Kind::DeRef | Kind::ValRef | Kind::Assign | Kind::Bind => {
            format!(" {operand}")
        }
        Kind::Boo => format!(" {}", operand == 1),
        Kind::Call => format!(" {}", operand % NAMES),
        Kind::Formal => format!(" {} {}", operand % NAMES, operand / NAMES),
        Kind::Binary(_) | Kind::Not | Kind::Loop | Kind::CSeq | Kind::Blk => String::new(),
        Kind::Cond | Kind::DSeq | Kind::Ref | Kind::Abs => String::new(),
    };
    format!("({}{said}", by_kind(node.kind()).name)
}
