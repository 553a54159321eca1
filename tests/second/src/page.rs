//! The tree on the contract's annex page: one node a line, 30 columns and a newline.
//!
//! | Columns | What they hold |
//! |---|---|
//! | 1 to 4 | the node |
//! | 6 and 7 | its depth |
//! | 9 to 14 | the kind's name |
//! | 16 to 25 | the operand |
//! | 27 to 30 | the first node after its descendants |
//!
//! Numbers are decimal, to the right of their columns; names to the left. All else is blank.

use crate::kinds::by_kind;
use crate::node::Node;
use crate::tree::Routine;

/// The lines of a routine's page, one for each node; none where there is no routine.
pub fn lines_of(routine: &Routine) -> String {
    let mut lines = Vec::new();
    if let Some(root) = routine.root.node() {
        add_lines(&mut lines, root, 1);
    }
    lines.concat()
}

/// Adds the line of a node at this depth, and those of its descendants.
fn add_lines(lines: &mut Vec<String>, node: Node, depth: u32) {
    let number = lines.len();
    // Where the descendants end is known when they have their lines.
    lines.push(String::new());
    for child in node.children() {
        add_lines(lines, child, depth + 1);
    }
    let (name, operand, end) = (by_kind(node.kind()).name, node.operand(), lines.len());
    lines[number] = format!("{number:>4} {depth:>2} {name:<6} {operand:>10} {end:>4}\n");
}
