//! A tree with other commands in its Conds.

use second::tree::*;

/// What becomes of the two commands of a Cond.
pub type Change = dyn Fn(Box<Command>, Box<Command>) -> (Box<Command>, Box<Command>);

/// The tree with the two commands of every Cond changed, the innermost first.
pub fn with_choices(command: &Command, change: &Change) -> Command {
    let below = |command: &Command| Box::new(with_choices(command, change));
    match command {
        Command::Assign(_) | Command::Call(_) => command.clone(),
        Command::Loop(node) => {
            Command::Loop(Loop { command: below(&node.command), ..node.clone() })
        }
        Command::CSeq(node) => {
            let (first, second) = (below(&node.first), below(&node.second));
            Command::CSeq(CSeq { first, second, ..node.clone() })
        }
        Command::Blk(node) => Command::Blk(in_block(node, change)),
        Command::Cond(node) => {
            let (first, second) = change(below(&node.first), below(&node.second));
            Command::Cond(Cond { first, second, ..node.clone() })
        }
    }
}

fn in_block(node: &Blk, change: &Change) -> Blk {
    let declaration = in_declaration(&node.declaration, change);
    Blk { declaration, command: Box::new(with_choices(&node.command, change)), ..node.clone() }
}

fn in_declaration(declaration: &Declaration, change: &Change) -> Declaration {
    match declaration {
        Declaration::Bind(Bind { place, name, bound: Bound::Abs(abs) }) => {
            let body = Box::new(in_block(&abs.body, change));
            let bound = Bound::Abs(Abs { body, ..abs.clone() });
            Declaration::Bind(Bind { place: *place, name: *name, bound })
        }
        Declaration::Bind(_) => declaration.clone(),
        Declaration::DSeq(node) => {
            let below = |one: &Declaration| Box::new(in_declaration(one, change));
            let (first, second) = (below(&node.first), below(&node.second));
            Declaration::DSeq(DSeq { first, second, ..node.clone() })
        }
    }
}
