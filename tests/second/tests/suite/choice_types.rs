//! A choice without a loop, in the reader and the check: where a Cond may stand, what
//! its test may be, that both commands are checked, and the order of faults, 11 at the
//! Cond last.

use crate::helpers::*;
use crate::sequences::body;
use second::build::*;
use second::encode;
use second::engine::Answer;
use second::generate::random::Random;
use second::generate::well_typed::Temper;
use second::node::Node;
use second::reader::read;
use second::tree::*;

fn set() -> Command {
    assign(0, num(0))
}

/// The checker's answer to a tree with one register.
fn one(root: impl Into<Root>) -> Answer {
    checked_tree(1, root)
}

/// A Cond in each place where a command may stand, with the Cond's own place.
fn wherever(choice: Command) -> Vec<(Command, Place)> {
    vec![
        (choice.clone(), 0),
        (repeat(boo(false), choice.clone()), 2),
        (cseq(choice.clone(), set()), 1),
        (cseq(set(), choice.clone()), 3),
        (blk(bind(1, num(0)), choice.clone()), 3),
        (cond(boo(true), choice.clone(), set()), 2),
        (cond(boo(true), set(), choice.clone()), 4),
        // Blk, Bind, Abs, its Blk, Bind, Num.
        (blk(bind_abs(1, &[], body(choice)), call(1, vec![])), 6),
    ]
}

/// There it passes; with another operand it is 4; with a test of another code 11.
#[test]
fn wherever_a_command_may_stand() {
    for (root, place) in wherever(cond(boo(true), set(), set())) {
        assert_eq!(one(root.clone()), Answer::Command);
        let words = image(1, root);
        let operand = 2 + words[0] as usize + place as usize;
        for other in [1, 2, 25, 64, u32::MAX] {
            let mut words = words.clone();
            words[operand] = other;
            assert_eq!(checked(&words), answer_refused(4, place), "{other}");
        }
    }
    for (root, place) in wherever(cond(num(1), set(), set())) {
        assert_eq!(one(root), answer_refused(11, place));
    }
}

/// A function's last child is a Blk: a Cond in its place is 5 there.
#[test]
fn not_in_place_of_a_functions_blk() {
    let words = image(1, blk(bind_abs(1, &[], body(cond(boo(true), set(), set()))), set()));
    // Blk, Bind, Abs, the function's Blk, Bind, Num, Cond: without the inner Blk and
    // its declaration the Cond stands at 3.
    let (kinds, operands) = words[2..].split_at(words[0] as usize);
    let without = |all: &[u32]| [&all[..3], &all[6..]].concat();
    let image = [vec![words[0] - 3, 1], without(kinds), without(operands)].concat();
    assert_eq!(checked(&image), answer_refused(5, 3));
}

/// A level for each Cond, and its three children stand on the next.
#[test]
fn depth_64_passes_and_65_is_6() {
    let firsts = |count| (0..count).fold(set(), |inner, _| cond(boo(true), inner, set()));
    let seconds = |count, first: Command| {
        (0..count).fold(set(), |inner, _| cond(boo(true), first.clone(), inner))
    };
    // With 62 Conds the innermost Assign is at depth 63, its Num at 64.
    assert_eq!(one(firsts(62)), Answer::Command);
    assert_eq!(one(seconds(62, set())), Answer::Command);
    // With one more it is at 65. A Cond and a Boo stand before each first command.
    assert_eq!(one(firsts(63)), answer_refused(6, 2 * 63 + 1));
    // Before each second one an Assign of a Num more, of which the last is too deep, or
    // a Call, which is not.
    assert_eq!(one(seconds(63, set())), answer_refused(6, 4 * 62 + 3));
    assert_eq!(one(seconds(63, call(1, vec![]))), answer_refused(6, 3 * 63 + 1));
    // A test at depth 64 and at 65.
    let tested =
        |count| (0..count).fold(cond(not(boo(true)), set(), set()), |inner, _| cseq(inner, set()));
    assert_eq!(one(tested(61)), Answer::Command);
    assert_eq!(one(tested(62)), answer_refused(6, 62 + 2));
    assert_eq!(one(tested(63)), answer_refused(6, 63 + 1));
}

/// Code 1 and no other: plain, in a cell, or in a cell whose location is in a cell.
#[test]
fn the_test_is_a_truth() {
    let tested = |test| one(cond(test, set(), set()));
    assert_eq!(tested(boo(false)), Answer::Command);
    assert_eq!(tested(eq(id(0), num(0))), Answer::Command);
    for test in [num(0), num(1), id(0), deref(0), sum(num(1), num(1))] {
        assert_eq!(tested(test), answer_refused(11, 0));
    }
    // Name 1 is a cell of a truth, 2 a cell of its location, 3 a cell of that one's.
    let cells = dseq(bind_ref(1, boo(true)), dseq(bind_ref(2, deref(1)), bind_ref(3, deref(2))));
    let tested = |test| one(blk(cells.clone(), cond(test, set(), set())));
    assert_eq!(tested(id(1)), Answer::Command);
    assert_eq!(tested(valref(2)), Answer::Command);
    for test in [deref(1), id(2), deref(2), id(3), deref(3), valref(3)] {
        // Blk, two DSeqs and three Binds of a Ref.
        assert_eq!(tested(test), answer_refused(11, 12));
    }
    // A function's name is a fault of the test's own.
    let function = bind_abs(1, &[], body(set()));
    assert_eq!(one(blk(function, cond(id(1), set(), set()))), answer_refused(11, 9));
}

/// Faults of the test, of the first command, of the second, and at last the Cond's.
#[test]
fn the_order_of_faults() {
    // Each alone, and with all that come after it.
    let unbound = || id(60);
    let wrong = || not(num(0));
    let first_at_fault = || assign(0, boo(true));
    let second_at_fault = || assign(61, num(0));
    assert_eq!(one(cond(unbound(), first_at_fault(), second_at_fault())), answer_refused(10, 1));
    assert_eq!(one(cond(wrong(), second_at_fault(), second_at_fault())), answer_refused(11, 1));
    assert_eq!(one(cond(num(1), first_at_fault(), second_at_fault())), answer_refused(11, 2));
    assert_eq!(one(cond(num(1), second_at_fault(), first_at_fault())), answer_refused(10, 2));
    assert_eq!(one(cond(num(1), set(), second_at_fault())), answer_refused(10, 4));
    assert_eq!(one(cond(num(1), set(), first_at_fault())), answer_refused(11, 4));
    assert_eq!(one(cond(num(1), set(), set())), answer_refused(11, 0));
    assert_eq!(one(cond(boo(true), set(), second_at_fault())), answer_refused(10, 4));
    // Inner Conds are judged with their commands, before the outer one's test.
    let inner = || cond(num(1), set(), set());
    assert_eq!(one(cond(num(1), inner(), inner())), answer_refused(11, 2));
    assert_eq!(one(cond(num(1), set(), inner())), answer_refused(11, 4));
    // What comes behind the Cond is judged after it.
    assert_eq!(one(cseq(inner(), second_at_fault())), answer_refused(11, 1));
    assert_eq!(one(cseq(cond(boo(true), set(), set()), second_at_fault())), answer_refused(10, 7));
}

/// Each fault of a command, in either command, with either truth as the test.
#[test]
fn both_commands_are_checked_taken_or_not() {
    let twice = dseq(bind(1, num(0)), bind(1, num(0)));
    let faults: Vec<(Command, u32, Place)> = vec![
        (assign(0, id(60)), 10, 1),
        (assign(60, num(0)), 10, 0),
        (call(60, vec![]), 10, 0),
        (assign(0, boo(true)), 11, 0),
        (repeat(num(1), set()), 11, 0),
        (cond(num(1), set(), set()), 11, 0),
        (blk(twice, set()), 12, 1),
        (blk(bind(1, num(0)), assign(1, num(0))), 13, 3),
        (call(0, vec![]), 14, 0),
        (blk(bind_abs(1, &[], body(assign(0, id(60)))), set()), 10, 7),
    ];
    for (fault, number, place) in faults {
        for truth in [true, false] {
            let first = one(cond(boo(truth), fault.clone(), set()));
            assert_eq!(first, answer_refused(number, 2 + place));
            let second = one(cond(boo(truth), set(), fault.clone()));
            assert_eq!(second, answer_refused(number, 4 + place));
        }
    }
}

/// What a block in one command declares is unknown in the other, in the test of a later
/// Cond, and behind; what is declared around is known in all three children.
#[test]
fn names_are_those_around_the_choice() {
    let declare = || blk(bind_ref(1, num(0)), assign(0, id(1)));
    let using = || assign(0, id(1));
    // Cond, Boo, Blk, Bind, Ref, Num, Assign, Id; then Assign and its Id.
    assert_eq!(one(cond(boo(true), declare(), using())), answer_refused(10, 9));
    assert_eq!(one(cond(boo(true), using(), declare())), answer_refused(10, 3));
    assert_eq!(one(cond(boo(true), declare(), declare())), Answer::Command);
    let behind = |command| cseq(cond(boo(true), declare(), declare()), command);
    assert_eq!(one(behind(using())), answer_refused(10, 16));
    assert_eq!(one(behind(cond(eq(id(1), num(0)), set(), set()))), answer_refused(10, 17));
    // Name 0 is a cell of a truth in a block of one command, the register in the other.
    let negate = || assign(0, not(id(0)));
    let hidden = || blk(bind_ref(0, boo(true)), negate());
    let add = || assign(0, sum(id(0), num(1)));
    assert_eq!(one(cond(boo(true), hidden(), add())), Answer::Command);
    assert_eq!(one(cond(boo(true), add(), hidden())), Answer::Command);
    assert_eq!(one(cond(boo(true), hidden(), negate())), answer_refused(11, 10));
    // Known in the test and in both commands.
    let around = |command| blk(dseq(bind(1, boo(true)), bind_ref(2, num(0))), command);
    let all = cond(id(1), assign(2, num(1)), assign(0, id(2)));
    assert_eq!(one(around(all)), Answer::Command);
    // A function of one command is no function of the other.
    let function = || blk(bind_abs(1, &[], body(set())), call(1, vec![]));
    assert_eq!(one(cond(boo(true), function(), function())), Answer::Command);
    assert_eq!(one(cond(boo(true), function(), call(1, vec![]))), answer_refused(10, 11));
}

/// Every Cond of well-typed trees: 11 there with a number as its test, and 5 somewhere
/// without its second command.
#[test]
fn of_generated_choices() {
    let random = &mut Random::new(11);
    let mut judged = 0;
    while judged < 300 {
        let routine = second::generate::well_typed_routine(random, 100, Temper::Calm);
        let words = encode(&routine);
        let routine = read(&words).unwrap();
        for (node, _) in routine.root.preorder() {
            let Node::Cond(choice) = node else { continue };
            let place = choice.place as usize;
            let test = Node::Expression(&choice.test).preorder().len();
            let with_test = replaced(&words, place + 1..place + 1 + test, Some((1, 0)));
            assert_eq!(checked(&with_test), answer_refused(11, choice.place));
            let second = Node::from(&choice.second);
            let (from, count) = (second.place() as usize, second.preorder().len());
            let without = replaced(&words, from..from + count, None);
            let number = checked(&without).refusal().expect("a child is missing").number;
            assert_eq!(number, 5);
            judged += 1;
        }
    }
}

/// The image with one node, or none, in place of some.
fn replaced(image: &[u32], places: std::ops::Range<usize>, node: Option<(u32, u32)>) -> Vec<u32> {
    let (kinds, operands) = image[2..].split_at(image[0] as usize);
    let (mut kinds, mut operands) = (kinds.to_vec(), operands.to_vec());
    kinds.splice(places.clone(), node.map(|(kind, _)| kind));
    operands.splice(places, node.map(|(_, operand)| operand));
    [vec![kinds.len() as u32, image[1]], kinds, operands].concat()
}
