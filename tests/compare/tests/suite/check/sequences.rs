//! What the second declaration of a DSeq sees of the first, in every form and with
//! every code, in every shape of three DSeqs; and what the first does not see.

use crate::helpers::{agreed_tree, refused};
use second::build::*;
use second::engine::Answer;
use second::tree::*;

/// Names 10 to 17 have codes 0 to 7, each bound to one before it where it holds a
/// location; 20 is a function of no Formals, 21 one of a Formal of code 0.
fn every_code() -> Vec<Declaration> {
    let nothing = || block(bind(1, num(0)), assign(0, num(0)));
    vec![
        bind(10, num(0)),
        bind(11, boo(true)),
        bind_ref(12, num(0)),
        bind_ref(13, boo(true)),
        bind_ref(14, deref(12)),
        bind_ref(15, deref(13)),
        bind_ref(16, deref(14)),
        bind_ref(17, deref(15)),
        bind_abs(20, &[], nothing()),
        bind_abs(21, &[(30, 0)], nothing()),
    ]
}

/// These names, and one that has no binding.
const NAMED: [Name; 11] = [10, 11, 12, 13, 14, 15, 16, 17, 20, 21, 60];

/// All of them one after another and then this one: to the left, to the right, and
/// as shallow as can be.
fn shapes(last: Declaration) -> [Declaration; 3] {
    let mut all = every_code();
    all.push(last);
    let left = all.iter().cloned().reduce(dseq).expect("a declaration");
    let right = all.iter().cloned().rev().reduce(|later, one| dseq(one, later)).expect("as many");
    [left, right, declarations(all)]
}

/// Whether a last declaration passes: the same in every shape.
fn passes(last: Declaration) -> bool {
    let answers = shapes(last)
        .map(|declaration| agreed_tree(1, blk(declaration, assign(0, num(0)))) == Answer::Command);
    assert!(answers.iter().all(|answer| *answer == answers[0]), "{answers:?}");
    answers[0]
}

fn count(all: impl IntoIterator<Item = Declaration>) -> usize {
    all.into_iter().filter(|last| passes(last.clone())).count()
}

fn leaves() -> Vec<Expression> {
    NAMED.iter().flat_map(|name| [id(*name), deref(*name), valref(*name)]).collect()
}

/// A function of the last declaration that runs one command.
fn running(command: Command) -> Declaration {
    bind_abs(1, &[], block(bind(2, num(0)), command))
}

/// Id of each code, DeRef of 2 to 7, ValRef of 4 to 7.
#[test]
fn of_each_name_in_each_form() {
    assert_eq!(count(leaves().into_iter().map(|leaf| bind(1, leaf))), 8 + 6 + 4);
    // Codes 6 and 7 come of DeRef 16 and DeRef 17 alone.
    assert_eq!(count(leaves().into_iter().map(|leaf| bind_ref(1, leaf))), 8 + 6 + 4 - 2);
    assert_eq!(count(leaves().into_iter().map(|leaf| bind(1, sum(leaf, num(1))))), 3);
    assert_eq!(count(leaves().into_iter().map(|leaf| bind(1, not(leaf)))), 3);
}

#[test]
fn of_each_name_in_a_function() {
    assert_eq!(count(leaves().into_iter().map(|leaf| running(assign(0, leaf)))), 3);
    for name in NAMED {
        let set = [num(0), boo(true), deref(0)].map(|value| running(assign(name, value)));
        assert_eq!(count(set), usize::from([12, 13].contains(&name)), "Assign {name}");
        let calls = (0..3).map(|actuals| running(call(name, vec![num(0); actuals])));
        assert_eq!(count(calls), usize::from([20, 21].contains(&name)), "Call {name}");
    }
}

/// A name of the first, a Formal or a name of the function's own Blk that hides it.
#[test]
fn of_a_name_hidden_again() {
    for name in NAMED {
        let sum_of = |name| bind(50, sum(id(name), num(1)));
        let formal = bind_abs(1, &[(name, 0)], block(sum_of(name), assign(0, id(50))));
        assert!(passes(formal), "{name}");
        let inner = block(bind(2, num(0)), blk(bind(name, num(1)), assign(0, id(name))));
        assert!(passes(bind_abs(1, &[], inner)), "{name}");
    }
}

/// Every declaration of eight names another: those before it pass, itself and those
/// after it are 10 where the name stands, in every shape.
#[test]
fn of_each_pair_of_eight() {
    for user in 0..8 {
        for used in 0..8 {
            let declare = |index: usize| {
                let name = 30 + index as Name;
                bind(name, if index == user { id(30 + used as Name) } else { num(0) })
            };
            let all: Vec<Declaration> = (0..8).map(declare).collect();
            let left = all.iter().cloned().reduce(dseq).expect("eight");
            let right = all.iter().cloned().rev().reduce(|later, one| dseq(one, later));
            for declaration in [left, right.expect("eight"), declarations(all)] {
                let root = blk(declaration, assign(0, num(0)));
                let place = place_of(&root, id(30 + used as Name));
                let expected = if used < user { Answer::Command } else { refused(10, place) };
                assert_eq!(agreed_tree(1, root), expected, "{user} uses {used}");
            }
        }
    }
}

/// The place of the only node that is this expression.
fn place_of(root: &Command, wanted: Expression) -> Place {
    let nodes = second::node::Node::from(root).preorder();
    let is_wanted = |node: &second::node::Node| match node {
        second::node::Node::Expression(node) => node.form == wanted.form,
        _ => false,
    };
    nodes.iter().position(|(node, _)| is_wanted(node)).expect("the node is there") as Place
}

/// A name of all eight twice, where the second has used the first: 12 at the DSeq
/// that has it on both sides, which is the innermost around both.
#[test]
fn of_each_name_used_and_repeated() {
    for first in 0..7 {
        for again in first + 1..8 {
            let declare = |index: usize| match index == again {
                true => bind(30 + first as Name, sum(id(30 + first as Name), num(1))),
                false => bind(30 + index as Name, num(0)),
            };
            let all: Vec<Declaration> = (0..8).map(declare).collect();
            let left = all.iter().cloned().reduce(dseq).expect("eight");
            let right = all.iter().cloned().rev().reduce(|later, one| dseq(one, later));
            // To the left the DSeqs stand first, the outermost at 1; to the right
            // there are two nodes of a Bind between them.
            let at_left = 1 + (7 - again);
            let at_right = 1 + 3 * first;
            let answer = |both| agreed_tree(1, blk(both, assign(0, num(0))));
            assert_eq!(answer(left), refused(12, at_left as Place), "{first} and {again}");
            assert_eq!(answer(right.expect("eight")), refused(12, at_right as Place));
        }
    }
}
