//! Declarations one after another, in the check: the second one of a DSeq is judged
//! with the first one's names in scope, which hide those around; the order of
//! faults, 12 last.

use crate::helpers::*;
use crate::sequences::{body, both_shapes};
use second::build::*;
use second::engine::Answer;

/// A name of the first has its code in the second, in every form of a name.
#[test]
fn the_firsts_names_have_their_codes_in_the_second() {
    let second = |first, second| checked_tree(1, blk(dseq(first, second), assign(0, num(0))));
    let function = || bind_abs(1, &[(3, 0)], body(assign(0, num(0))));
    // The first is a Bind and a leaf: the second's value is at 5.
    assert_eq!(second(bind(1, num(0)), bind(2, sum(id(1), num(1)))), Answer::Command);
    assert_eq!(second(bind(1, boo(true)), bind(2, sum(id(1), num(1)))), answer_refused(11, 5));
    assert_eq!(second(bind(1, boo(true)), bind(2, not(id(1)))), Answer::Command);
    assert_eq!(second(bind(1, num(0)), bind(2, deref(1))), answer_refused(11, 5));
    assert_eq!(second(bind(1, deref(0)), bind(2, deref(1))), Answer::Command);
    assert_eq!(second(bind(1, deref(0)), bind(2, valref(1))), answer_refused(11, 5));
    // With a Ref it is at 6.
    assert_eq!(second(bind_ref(1, num(0)), bind(2, deref(1))), Answer::Command);
    assert_eq!(second(bind_ref(1, deref(0)), bind(2, valref(1))), Answer::Command);
    assert_eq!(second(bind_ref(1, num(0)), bind(2, valref(1))), answer_refused(11, 6));
    // A function's name is no value, nor is it called in an expression.
    assert_eq!(second(function(), bind(2, id(1))), answer_refused(11, 11));
    // Inside a function of the second: its Blk's command is at 9, with a Ref in the
    // first at 10, with a function there at 15.
    let inside = |first, command| second(first, bind_abs(2, &[], body(command)));
    assert_eq!(inside(bind(1, num(0)), assign(1, num(0))), answer_refused(13, 9));
    assert_eq!(inside(bind_ref(1, num(0)), assign(1, num(0))), Answer::Command);
    assert_eq!(inside(bind_ref(1, num(0)), assign(1, boo(true))), answer_refused(11, 10));
    assert_eq!(inside(bind(1, num(0)), call(1, vec![])), answer_refused(14, 9));
    assert_eq!(inside(function(), call(1, vec![num(0)])), Answer::Command);
    assert_eq!(inside(function(), call(1, vec![])), answer_refused(14, 15));
    assert_eq!(inside(function(), call(1, vec![boo(true)])), answer_refused(11, 15));
    assert_eq!(inside(function(), assign(1, num(0))), answer_refused(13, 15));
}

/// Name 0 is the register outside, a truth in the second: what fits the one is a
/// fault of the other.
#[test]
fn the_firsts_name_hides_the_outer_one_in_the_check_too() {
    let then = || assign(2, num(0));
    let checked = |both| checked_tree(3, blk(both, then()));
    assert_eq!(
        checked(dseq(bind(0, boo(true)), bind(1, sum(id(0), num(1))))),
        answer_refused(11, 5)
    );
    assert_eq!(checked(dseq(bind(0, boo(true)), bind(1, not(id(0))))), Answer::Command);
    // In the first, and behind the block, it is the register.
    assert_eq!(checked(dseq(bind(0, not(id(0))), bind(1, num(0)))), answer_refused(11, 3));
    let both = dseq(bind(0, boo(true)), bind(1, not(id(0))));
    let root = cseq(blk(both, then()), assign(0, sum(id(0), num(1))));
    assert_eq!(checked_tree(3, root), Answer::Command);
}

#[test]
fn neither_the_first_nor_a_bind_itself_sees_what_comes_later() {
    let then = || assign(0, num(0));
    let checked = |both| checked_tree(1, blk(both, then()));
    assert_eq!(checked(dseq(bind(2, id(1)), bind(1, num(0)))), answer_refused(10, 3));
    assert_eq!(checked(dseq(bind(1, num(0)), bind(2, id(2)))), answer_refused(10, 5));
    assert_eq!(checked(dseq(bind(1, id(1)), bind(2, id(1)))), answer_refused(10, 3));
    // Nor does a function of the first.
    let add = bind_abs(1, &[], body(assign(0, num(0))));
    let calls = bind_abs(2, &[], body(call(1, vec![])));
    assert_eq!(checked(dseq(add.clone(), calls.clone())), Answer::Command);
    assert_eq!(checked(dseq(calls, add)), answer_refused(10, 7));
    // Of three the first two do not see the third.
    let [left, right] = both_shapes(bind(1, num(0)), bind(2, id(3)), bind(3, num(0)));
    assert_eq!(checked(left), answer_refused(10, 6));
    assert_eq!(checked(right), answer_refused(10, 6));
    let [left, right] = both_shapes(bind(1, id(2)), bind(2, num(0)), bind(3, num(0)));
    assert_eq!(checked(left), answer_refused(10, 4));
    assert_eq!(checked(right), answer_refused(10, 3));
    // A function of the second does not see its own name.
    let function = bind_abs(2, &[], body(call(2, vec![])));
    assert_eq!(checked(dseq(bind(1, num(0)), function)), answer_refused(10, 9));
    // What the declarations of a block left see is not seen behind it.
    let both = dseq(bind(1, num(0)), bind(2, id(1)));
    let root = cseq(blk(both, then()), assign(0, id(1)));
    assert_eq!(checked_tree(1, root), answer_refused(10, 10));
}

/// The first, then the second, then 12 at the DSeq; the Blk's command last.
#[test]
fn the_order_of_faults() {
    let then = || assign(0, num(0));
    let checked = |both| checked_tree(1, blk(both, then()));
    let wrong = || not(num(0));
    assert_eq!(checked(dseq(bind(1, id(60)), bind(2, wrong()))), answer_refused(10, 3));
    assert_eq!(checked(dseq(bind(1, wrong()), bind(2, id(60)))), answer_refused(11, 3));
    // A fault in the second, which repeats a name too.
    assert_eq!(checked(dseq(bind(1, num(0)), bind(1, id(60)))), answer_refused(10, 5));
    assert_eq!(checked(dseq(bind(1, num(0)), bind(1, not(id(1))))), answer_refused(11, 5));
    // The second has used the first's name, and repeats it.
    let twice = dseq(bind(1, num(0)), bind(1, sum(id(1), num(1))));
    assert_eq!(checked(twice.clone()), answer_refused(12, 1));
    assert_eq!(checked_tree(1, blk(twice, assign(0, id(60)))), answer_refused(12, 1));
    // Nested: at the DSeq that has the name on both sides, the inner one first.
    let [left, right] = both_shapes(bind(1, num(0)), bind(2, id(1)), bind(1, id(2)));
    assert_eq!(checked(left), answer_refused(12, 1));
    assert_eq!(checked(right), answer_refused(12, 1));
    let [left, right] = both_shapes(bind(1, num(0)), bind(2, id(1)), bind(2, id(1)));
    assert_eq!(checked(left), answer_refused(12, 1));
    assert_eq!(checked(right), answer_refused(12, 4));
    let [left, right] = both_shapes(bind(1, num(0)), bind(1, id(1)), bind(3, id(60)));
    assert_eq!(checked(left), answer_refused(12, 2));
    assert_eq!(checked(right), answer_refused(10, 8));
}
