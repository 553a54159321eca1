//! One view over all nodes of a tree: place, kind, operand and children.
//!
//! The automaton's control stack holds nodes in this form, and what walks a
//! whole tree (encoding, printing) goes through it.

use crate::kinds::{Kind, NAMES};
use crate::tree::*;

#[derive(Clone, Copy, Debug)]
pub enum Node<'t> {
    Expression(&'t Expression),
    Assign(&'t Assign),
    Loop(&'t Loop),
    CSeq(&'t CSeq),
    Blk(&'t Blk),
    Call(&'t Call),
    Cond(&'t Cond),
    Bind(&'t Bind),
    DSeq(&'t DSeq),
    Ref(&'t Ref),
    Abs(&'t Abs),
    Formal(&'t Formal),
}

impl<'t> Node<'t> {
    pub fn place(self) -> Place {
        match self {
            Node::Expression(node) => node.place,
            Node::Assign(node) => node.place,
            Node::Loop(node) => node.place,
            Node::CSeq(node) => node.place,
            Node::Blk(node) => node.place,
            Node::Call(node) => node.place,
            Node::Cond(node) => node.place,
            Node::Bind(node) => node.place,
            Node::DSeq(node) => node.place,
            Node::Ref(node) => node.place,
            Node::Abs(node) => node.place,
            Node::Formal(node) => node.place,
        }
    }

    pub fn kind(self) -> Kind {
        match self {
            Node::Expression(node) => match node.form {
                Form::Num(_) => Kind::Num,
                Form::Boo(_) => Kind::Boo,
                Form::Id(_) => Kind::Id,
                Form::DeRef(_) => Kind::DeRef,
                Form::ValRef(_) => Kind::ValRef,
                Form::Binary(operator, ..) => Kind::Binary(operator),
                Form::Not(_) => Kind::Not,
            },
            Node::Assign(_) => Kind::Assign,
            Node::Loop(_) => Kind::Loop,
            Node::CSeq(_) => Kind::CSeq,
            Node::Blk(_) => Kind::Blk,
            Node::Call(_) => Kind::Call,
            Node::Cond(_) => Kind::Cond,
            Node::Bind(_) => Kind::Bind,
            Node::DSeq(_) => Kind::DSeq,
            Node::Ref(_) => Kind::Ref,
            Node::Abs(_) => Kind::Abs,
            Node::Formal(_) => Kind::Formal,
        }
    }

    /// The operand word, as the paper's table gives it.
    pub fn operand(self) -> u32 {
        match self {
            Node::Expression(node) => match node.form {
                Form::Num(number) => number,
                Form::Boo(truth) => truth as u32,
                Form::Id(name) | Form::DeRef(name) | Form::ValRef(name) => name,
                Form::Binary(..) | Form::Not(_) => 0,
            },
            Node::Assign(node) => node.name,
            Node::Call(node) => node.name + NAMES * node.actuals.len() as u32,
            Node::Bind(node) => node.name,
            Node::Abs(node) => node.formals.len() as u32,
            Node::Formal(node) => node.name + NAMES * node.code,
            Node::Loop(_)
            | Node::CSeq(_)
            | Node::Blk(_)
            | Node::Cond(_)
            | Node::DSeq(_)
            | Node::Ref(_) => 0,
        }
    }

    /// The children, left to right.
    pub fn children(self) -> Vec<Node<'t>> {
        match self {
            Node::Expression(node) => match &node.form {
                Form::Binary(_, left, right) => vec![left.into(), right.into()],
                Form::Not(operand) => vec![operand.into()],
                _ => vec![],
            },
            Node::Assign(node) => vec![(&node.value).into()],
            Node::Loop(node) => vec![(&node.test).into(), (&node.command).into()],
            Node::CSeq(node) => vec![(&node.first).into(), (&node.second).into()],
            Node::Blk(node) => vec![(&node.declaration).into(), (&node.command).into()],
            Node::Call(node) => node.actuals.iter().map(Node::from).collect(),
            Node::Cond(node) => {
                vec![(&node.test).into(), (&node.first).into(), (&node.second).into()]
            }
            Node::Bind(node) => vec![(&node.bound).into()],
            Node::DSeq(node) => vec![(&node.first).into(), (&node.second).into()],
            Node::Ref(node) => vec![(&node.value).into()],
            Node::Abs(node) => {
                let mut children: Vec<Node> = node.formals.iter().map(Node::Formal).collect();
                children.push(Node::Blk(&node.body));
                children
            }
            Node::Formal(_) => vec![],
        }
    }

    /// This node and all below it, in preorder, each with its depth.
    pub fn preorder(self) -> Vec<(Node<'t>, u32)> {
        let mut listed = Vec::new();
        let mut pending = vec![(self, 1)];
        while let Some((node, depth)) = pending.pop() {
            listed.push((node, depth));
            pending.extend(node.children().into_iter().rev().map(|child| (child, depth + 1)));
        }
        listed
    }
}

impl Root {
    /// The root's node, if there is one.
    pub fn node(&self) -> Option<Node<'_>> {
        match self {
            Root::Expression(node) => Some(Node::Expression(node)),
            Root::Command(node) => Some(node.into()),
            Root::Absent => None,
        }
    }

    /// Every node in preorder, each with its depth.
    pub fn preorder(&self) -> Vec<(Node<'_>, u32)> {
        self.node().map_or(Vec::new(), Node::preorder)
    }
}

impl<'t> From<&'t Expression> for Node<'t> {
    fn from(node: &'t Expression) -> Node<'t> {
        Node::Expression(node)
    }
}

impl<'t> From<&'t Box<Expression>> for Node<'t> {
    fn from(node: &'t Box<Expression>) -> Node<'t> {
        Node::Expression(node)
    }
}

impl<'t> From<&'t Command> for Node<'t> {
    fn from(node: &'t Command) -> Node<'t> {
        match node {
            Command::Assign(node) => Node::Assign(node),
            Command::Loop(node) => Node::Loop(node),
            Command::CSeq(node) => Node::CSeq(node),
            Command::Blk(node) => Node::Blk(node),
            Command::Call(node) => Node::Call(node),
            Command::Cond(node) => Node::Cond(node),
        }
    }
}

impl<'t> From<&'t Box<Command>> for Node<'t> {
    fn from(node: &'t Box<Command>) -> Node<'t> {
        node.as_ref().into()
    }
}

impl<'t> From<&'t Declaration> for Node<'t> {
    fn from(node: &'t Declaration) -> Node<'t> {
        match node {
            Declaration::Bind(node) => Node::Bind(node),
            Declaration::DSeq(node) => Node::DSeq(node),
        }
    }
}

impl<'t> From<&'t Box<Declaration>> for Node<'t> {
    fn from(node: &'t Box<Declaration>) -> Node<'t> {
        node.as_ref().into()
    }
}

impl<'t> From<&'t Bound> for Node<'t> {
    fn from(node: &'t Bound) -> Node<'t> {
        match node {
            Bound::Expression(node) => Node::Expression(node),
            Bound::Ref(node) => Node::Ref(node),
            Bound::Abs(node) => Node::Abs(node),
        }
    }
}
