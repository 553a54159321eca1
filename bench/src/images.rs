//! The images that are timed. All of them pass the checker.

use second::build::*;
use second::engine::{check, Answer, WORK_WORDS};
use second::generate::limits::with_nodes;
use second::kinds::{MOST_DEPTH, MOST_NODES};
use second::node::Node;
use second::tree::{Command, Declaration, Expression, Name};
use second::{encode, Refusal};

/// An image and what it is.
pub struct Timed {
    pub name: &'static str,
    pub image: Vec<u32>,
}

impl Timed {
    fn new(name: &'static str, image: Vec<u32>) -> Timed {
        if let Answer::Refused(Refusal { number, place }) = check(&image, WORK_WORDS) {
            panic!("{name} is refused with {number} at {place}");
        }
        Timed { name, image }
    }

    pub fn nodes(&self) -> u32 {
        self.image[0]
    }
}

/// The images whose check is timed for each node.
pub fn checked() -> Vec<Timed> {
    vec![
        straight_line(),
        nested_blocks(),
        Timed::new("deep: Sums down to depth 64", image(1, deep())),
        Timed::new("small: 5 × (3 + 2)", image(0, mul(num(5), sum(num(3), num(2))))),
    ]
}

/// The images whose needs and pages are timed beside their check.
pub fn needed() -> Vec<Timed> {
    let functions = Timed::new("many functions, each called often", image(1, functions()));
    vec![straight_line(), long_numbers(), nested_blocks(), functions]
}

fn straight_line() -> Timed {
    Timed::new("straight line: Assigns under CSeqs", encode(&with_nodes(MOST_NODES as usize)))
}

/// The same straight line but for its numbers, all of which have 10 digits.
fn long_numbers() -> Timed {
    let assigns = vec![assign(0, num(u32::MAX)); (MOST_NODES as usize + 1) / 3];
    Timed::new("straight line, numbers of 10 digits", image(1, balanced(assigns, cseq)))
}

fn nested_blocks() -> Timed {
    Timed::new("nested blocks and names", image(1, nested()))
}

/// The smallest images there are, whose check is timed for each call: with one node, and
/// with none.
pub fn smallest() -> Vec<Timed> {
    vec![
        Timed::new("one node: a Num", image(0, num(1))),
        Timed::new("no routine: n 0", image(0, absent())),
    ]
}

/// Blocks within blocks, each with names of its own, over names bound far
/// outside: 2,000 nodes in which every name is looked up through many others.
fn nested() -> Command {
    const BLOCKS: usize = 24;
    const OUTER: Name = 8;
    const LOCALS: Name = 20;
    let outer = |index: u32| 1 + index % OUTER;
    let around = |command: Command| {
        let blocks = (0..BLOCKS).fold(command, |command, _| {
            let local = |index| bind(32 + index, id(outer(index)));
            blk(declarations((0..LOCALS).map(local).collect()), command)
        });
        let cells = (0..OUTER).map(|index| bind_ref(outer(index), num(index))).collect();
        blk(declarations(cells), blocks)
    };
    // What room is left is filled with Assigns of outer names: with their CSeqs
    // 3 × count − 1 nodes, and 2 more for a Sum in place of an Id.
    let least = assign(0, id(1));
    let room = MOST_NODES as usize - nodes(&around(least.clone())) + nodes(&least);
    let sums = (0..3).find(|sums| (room + 1 - 2 * sums).is_multiple_of(3)).expect("one fits");
    let command = |index: usize| {
        let name = outer(index as u32);
        assign(name, if index < sums { sum(id(name), id(1)) } else { id(name) })
    };
    around(balanced((0..(room + 1 - 2 * sums) / 3).map(command).collect(), cseq))
}

/// Sums nested to the right down to the greatest depth, from a spine of CSeqs:
/// nearly 2,000 nodes, of which most stand deep.
fn deep() -> Command {
    const SPINE: u32 = 18;
    let value = |assign_depth: u32| -> Expression {
        (assign_depth + 1..MOST_DEPTH).fold(id(0), |right, _| sum(num(1), right))
    };
    (1..=SPINE).rev().fold(assign(0, num(0)), |rest, depth| cseq(assign(0, value(depth + 1)), rest))
}

/// Functions of one Formal in one declaration: nearly 2,000 nodes. Each but the first calls
/// the one before it once and the first one, which is bound before all others, eight times.
/// So the steps of all together stay few.
fn functions() -> Command {
    const FUNCTIONS: Name = 60;
    const CALLS: usize = 8;
    let called = |function| call(function, vec![id(61)]);
    let function = |name: Name| {
        let command = match name {
            1 => assign(0, id(62)),
            _ => {
                let mut calls = vec![called(1); CALLS];
                calls.push(called(name - 1));
                balanced(calls, cseq)
            }
        };
        bind_abs(name, &[(61, 0)], block(bind(62, id(61)), command))
    };
    let all: Vec<Declaration> = (1..=FUNCTIONS).map(function).collect();
    blk(balanced(all, dseq), call(FUNCTIONS, vec![num(7)]))
}

/// All of them in their order, joined two by two, so that the tree stays shallow.
fn balanced<T>(mut all: Vec<T>, join: fn(T, T) -> T) -> T {
    if all.len() == 1 {
        return all.remove(0);
    }
    let second = all.split_off(all.len() / 2);
    join(balanced(all, join), balanced(second, join))
}

fn nodes(command: &Command) -> usize {
    Node::from(command).preorder().len()
}
