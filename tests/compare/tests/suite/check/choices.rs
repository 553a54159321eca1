//! Seven Conds in three shapes: each of their eight commands at fault, each of their
//! tests, each two of these; names declared in one command and used in another.

use crate::helpers::{agreed, agreed_tree, refused};
use second::build::*;
use second::engine::Answer;
use second::generate::random::Random;
use second::node::Node;
use second::tree::*;

const COMMANDS: usize = 8;
const CHOICES: usize = COMMANDS - 1;

/// Eight commands under seven Conds: in each other's second command, in each other's
/// first, and balanced. The tests are used in the Conds' order in the image.
fn shapes(commands: &[Command], tests: &[Expression]) -> [Command; 3] {
    let seconds = (0..CHOICES).rev().fold(commands[CHOICES].clone(), |second, index| {
        cond(tests[index].clone(), commands[index].clone(), second)
    });
    let firsts = (0..CHOICES).fold(commands[0].clone(), |first, index| {
        cond(tests[CHOICES - 1 - index].clone(), first, commands[index + 1].clone())
    });
    [seconds, firsts, balanced(commands, &mut tests.iter().cloned())]
}

fn balanced(commands: &[Command], tests: &mut impl Iterator<Item = Expression>) -> Command {
    if let [command] = commands {
        return command.clone();
    }
    let test = tests.next().expect("a test for each Cond");
    let (first, second) = commands.split_at(commands.len() / 2);
    let first = balanced(first, tests);
    cond(test, first, balanced(second, tests))
}

fn sound() -> (Vec<Command>, Vec<Expression>) {
    (vec![assign(0, num(1)); COMMANDS], vec![boo(true); CHOICES])
}

/// The places below a node in the order in which they are judged: children left to
/// right, then the node.
fn judged(node: Node) -> Vec<Place> {
    let below = node.children().into_iter().flat_map(judged);
    below.chain([node.place()]).collect()
}

/// The places of the Conds and of the commands below them that are no Conds, in order.
fn places(routine: &Routine) -> (Vec<Place>, Vec<Place>) {
    let mut nodes: Vec<Node> = routine.root.preorder().into_iter().map(|(node, _)| node).collect();
    nodes.retain(|node| matches!(node, Node::Cond(_) | Node::Assign(_)));
    let (choices, commands): (Vec<Node>, Vec<Node>) =
        nodes.into_iter().partition(|node| matches!(node, Node::Cond(_)));
    let place = |all: Vec<Node>| all.into_iter().map(Node::place).collect();
    (place(choices), place(commands))
}

/// A fault of the Cond of this number, in its test, or of the command of this number.
#[derive(Clone, Copy)]
enum Fault {
    /// The test has code 0: 11 at the Cond.
    Choice(usize),
    /// The test is a name that has no binding: 10 there.
    Test(usize),
    /// The command sets such a name: 10 there.
    Command(usize),
}

impl Fault {
    /// The Cond whose test it is a fault of.
    fn tested(self) -> Option<usize> {
        match self {
            Fault::Choice(index) | Fault::Test(index) => Some(index),
            Fault::Command(_) => None,
        }
    }
}

fn all_faults() -> Vec<Fault> {
    let choices = (0..CHOICES).flat_map(|index| [Fault::Choice(index), Fault::Test(index)]);
    choices.chain((0..COMMANDS).map(Fault::Command)).collect()
}

/// The answer to a tree with these faults is that of the one judged first.
fn first_decides(faults: &[Fault]) {
    let (mut commands, mut tests) = sound();
    for fault in faults {
        match *fault {
            Fault::Choice(index) => tests[index] = num(0),
            Fault::Test(index) => tests[index] = id(60),
            Fault::Command(index) => commands[index] = assign(60, num(1)),
        }
    }
    for shape in shapes(&commands, &tests) {
        let words = image(1, shape.clone());
        let routine = second::reader::read(&words).expect("the shape holds");
        let order = judged(routine.root.node().expect("a root"));
        let (choices, commands) = places(&routine);
        let answers = faults.iter().map(|fault| match *fault {
            Fault::Choice(index) => (11, choices[index]),
            Fault::Test(index) => (10, choices[index] + 1),
            Fault::Command(index) => (10, commands[index]),
        });
        let turn = |place| order.iter().position(|judged| *judged == place);
        let (number, place) = answers.min_by_key(|(_, place)| turn(*place)).expect("a fault");
        assert_eq!(agreed_tree(1, shape), refused(number, place));
    }
}

#[test]
fn of_each_fault_alone() {
    let (commands, tests) = sound();
    for shape in shapes(&commands, &tests) {
        assert_eq!(agreed_tree(1, shape), Answer::Command);
    }
    for fault in all_faults() {
        first_decides(&[fault]);
    }
}

#[test]
fn of_each_two_faults() {
    for one in all_faults() {
        for other in all_faults() {
            // A Cond has one test, which has one fault.
            if one.tested().is_none() || one.tested() != other.tested() {
                first_decides(&[one, other]);
            }
        }
    }
}

/// Every command declares a name of its own; one uses that of another, which passes only
/// if it is the same one.
#[test]
fn of_a_name_declared_in_another_command() {
    for user in 0..COMMANDS {
        for used in 0..COMMANDS {
            let declare = |index: usize| {
                let value = if index == user { id(30 + used as Name) } else { num(1) };
                blk(bind_ref(30 + index as Name, num(0)), assign(0, value))
            };
            let commands: Vec<_> = (0..COMMANDS).map(declare).collect();
            for shape in shapes(&commands, &sound().1) {
                let answer = agreed_tree(1, shape);
                assert_eq!(answer == Answer::Command, user == used, "{user} uses {used}");
            }
        }
    }
}

/// Every Cond with another operand, and with each of its children missing or doubled.
#[test]
fn of_each_choice_with_another_operand_or_child() {
    let (commands, tests) = sound();
    let random = &mut Random::new(1);
    for shape in shapes(&commands, &tests) {
        let words = image(1, shape);
        let routine = second::reader::read(&words).expect("the shape holds");
        let count = words[0] as usize;
        for (node, _) in routine.root.preorder() {
            let Node::Cond(choice) = node else { continue };
            for operand in [1, 2, 25, 64, 1 << 31, u32::MAX] {
                let mut changed = words.clone();
                changed[2 + count + choice.place as usize] = operand;
                assert_eq!(agreed(&changed, random), refused(4, choice.place));
            }
            for child in node.children() {
                let (from, length) = (child.place() as usize, child.preorder().len());
                for times in [0, 2] {
                    let answer = agreed(&repeated(&words, from..from + length, times), random);
                    assert_eq!(answer.refusal().map(|refusal| refusal.number), Some(5));
                }
            }
        }
    }
}

/// The image with these nodes so many times.
fn repeated(image: &[u32], places: std::ops::Range<usize>, times: usize) -> Vec<u32> {
    let (kinds, operands) = image[2..].split_at(image[0] as usize);
    let part = |all: &[u32]| {
        [&all[..places.start], &all[places.clone()].repeat(times), &all[places.end..]].concat()
    };
    let (kinds, operands) = (part(kinds), part(operands));
    [vec![kinds.len() as u32, image[1]], kinds, operands].concat()
}
