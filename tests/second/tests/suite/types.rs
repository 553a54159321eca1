//! Scope and types: codes, refusals 10 to 14, each at its place and in order.

use crate::helpers::*;
use second::build::*;
use second::engine::Answer;
use second::tree::*;

/// An expression with a fault of its own: an unbound name, 10 at its place.
fn unbound() -> Expression {
    id(60)
}

/// A Blk that gives name 10 + c the code c, for each code, around a command.
/// The registers are one; the command's place is `INSIDE`.
fn with_every_code(command: Command) -> Command {
    let first = declarations(vec![bind(10, num(0)), bind(11, boo(true))]);
    let second = declarations(vec![bind_ref(12, num(0)), bind_ref(13, boo(true))]);
    let third = declarations(vec![bind_ref(14, deref(12)), bind_ref(15, deref(13))]);
    let fourth = declarations(vec![bind_ref(16, deref(14)), bind_ref(17, deref(15))]);
    let function = bind_abs(20, &[], block(bind(1, num(0)), assign(0, num(0))));
    blk(first, blk(second, blk(third, blk(fourth, blk(function, command)))))
}

/// Blk, DSeq and two Binds of one leaf, once; with Refs, three times; then Blk,
/// Bind, Abs and its Blk of Bind, Num, Assign, Num.
const INSIDE: Place = 6 + 8 + 8 + 8 + 1 + 2 + 5;

/// A Formal of this code bound to this expression is what the checker allows
/// exactly where the expression has this code.
fn code_inside(expression: Expression) -> Vec<Code> {
    let has = |code: Code| {
        let body = block(bind(1, num(0)), assign(0, num(0)));
        let command = blk(bind_abs(21, &[(30, code)], body), call(21, vec![expression.clone()]));
        checked_tree(1, with_every_code(command)) == Answer::Command
    };
    (0..8).filter(|code| has(*code)).collect()
}

fn inside(command: Command) -> Answer {
    checked_tree(1, with_every_code(command))
}

#[test]
fn id_takes_a_location_one_level_down_and_a_plain_value_as_it_is() {
    let codes: Vec<_> = (0..8).map(|code| code_inside(id(10 + code))).collect();
    assert_eq!(codes, [[0], [1], [0], [1], [2], [3], [4], [5]]);
}

#[test]
fn deref_gives_the_location_itself() {
    let codes: Vec<_> = (2..8).map(|code| code_inside(deref(10 + code))).collect();
    assert_eq!(codes, [[2], [3], [4], [5], [6], [7]]);
    for name in [10, 11, 20] {
        assert_eq!(
            inside(blk(bind(1, deref(name)), assign(0, num(0)))),
            answer_refused(11, INSIDE + 2)
        );
    }
}

#[test]
fn valref_takes_two_levels_down() {
    let codes: Vec<_> = (4..8).map(|code| code_inside(valref(10 + code))).collect();
    assert_eq!(codes, [[0], [1], [2], [3]]);
    for name in [10, 11, 12, 13, 20] {
        assert_eq!(
            inside(blk(bind(1, valref(name)), assign(0, num(0)))),
            answer_refused(11, INSIDE + 2)
        );
    }
}

#[test]
fn ref_takes_one_level_up_from_at_most_5() {
    // Ref of each code: name 14's contents have code 2, and so on; DeRef of a
    // name of code 6 or 7 is too high.
    let of = |value| blk(bind_ref(1, value), blk(bind(2, deref(1)), assign(0, num(0))));
    for value in [id(10), id(11), deref(12), deref(13), deref(14), deref(15), id(16), id(17)] {
        assert_eq!(inside(of(value)), Answer::Command);
    }
    for name in [16, 17] {
        assert_eq!(inside(of(deref(name))), answer_refused(11, INSIDE + 2));
    }
    // The new name has the code 2 more: a Formal of it tells.
    for (value, code) in [
        (num(1), 2),
        (boo(true), 3),
        (deref(12), 4),
        (deref(13), 5),
        (deref(14), 6),
        (deref(15), 7),
    ] {
        for formal in 0..8 {
            let body = block(bind(1, num(0)), assign(0, num(0)));
            let call = blk(bind_abs(21, &[(30, formal)], body), call(21, vec![deref(1)]));
            let answer = inside(blk(bind_ref(1, value.clone()), call));
            assert_eq!(answer == Answer::Command, formal == code);
        }
    }
}

#[test]
fn a_functions_name_is_no_value() {
    assert_eq!(inside(assign(0, id(20))), answer_refused(11, INSIDE + 1));
    assert_eq!(inside(assign(0, deref(20))), answer_refused(11, INSIDE + 1));
    assert_eq!(inside(assign(0, valref(20))), answer_refused(11, INSIDE + 1));
}

#[test]
fn operators_take_and_give_the_papers_codes() {
    use Operator::*;
    let leaf = |code: Code| [num(1), boo(true), deref(0)][code as usize].clone();
    for operator in [Sum, Sub, Mul, Div, Eq, Lt, Le, Gt, Ge, And, Or] {
        for left in 0..3 {
            for right in 0..3 {
                let allowed = match operator {
                    Sum | Sub | Mul | Div if (left, right) == (0, 0) => Answer::Code(0),
                    Lt | Le | Gt | Ge | Eq if (left, right) == (0, 0) => Answer::Code(1),
                    Eq | And | Or if (left, right) == (1, 1) => Answer::Code(1),
                    _ => answer_refused(11, 0),
                };
                let answer = checked_tree(1, binary(operator, leaf(left), leaf(right)));
                assert_eq!(answer, allowed, "{operator:?} of {left} and {right}");
            }
        }
    }
    assert_eq!(checked_tree(1, not(leaf(1))), Answer::Code(1));
    assert_eq!(checked_tree(1, not(leaf(0))), answer_refused(11, 0));
    assert_eq!(checked_tree(1, not(leaf(2))), answer_refused(11, 0));
}

#[test]
fn children_left_to_right_then_the_node() {
    // Both children have faults: the left one's decides.
    let wrong = || not(num(1));
    assert_eq!(checked_tree(0, sum(wrong(), unbound())), answer_refused(11, 1));
    assert_eq!(checked_tree(0, sum(unbound(), wrong())), answer_refused(10, 1));
    assert_eq!(checked_tree(0, sum(boo(true), unbound())), answer_refused(10, 2));
    assert_eq!(checked_tree(0, sum(boo(true), boo(true))), answer_refused(11, 0));
    assert_eq!(
        checked_tree(1, cseq(assign(0, unbound()), assign(5, num(0)))),
        answer_refused(10, 2)
    );
    assert_eq!(checked_tree(1, cseq(assign(0, num(0)), assign(5, num(0)))), answer_refused(10, 3));
}

#[test]
fn unbound_names_are_10_in_every_form() {
    for form in [id(0), deref(0), valref(0)] {
        assert_eq!(checked_tree(0, form), answer_refused(10, 0));
    }
    assert_eq!(checked_tree(0, assign(0, num(0))), answer_refused(10, 0));
    assert_eq!(checked_tree(0, call(0, vec![])), answer_refused(10, 0));
    // Names 0 to r − 1 are registers, r is not.
    assert_eq!(checked_tree(16, id(15)), Answer::Code(0));
    assert_eq!(checked_tree(15, id(15)), answer_refused(10, 0));
}

#[test]
fn assign_judges_its_value_then_10_then_13_then_11() {
    // The value's own fault comes first, even where the name is unbound.
    assert_eq!(inside(assign(61, unbound())), answer_refused(10, INSIDE + 1));
    assert_eq!(inside(assign(61, not(num(0)))), answer_refused(11, INSIDE + 1));
    assert_eq!(inside(assign(10, not(num(0)))), answer_refused(11, INSIDE + 1));
    // Unbound before the value's code could matter.
    assert_eq!(inside(assign(61, boo(true))), answer_refused(10, INSIDE));
    // Only codes 2 and 3 are assignable; a function's name is 13 too. The value
    // would not fit either: 13 comes before 11.
    for name in [10, 11, 14, 15, 16, 17, 20] {
        assert_eq!(inside(assign(name, num(0))), answer_refused(13, INSIDE), "name {name}");
        assert_eq!(inside(assign(name, boo(true))), answer_refused(13, INSIDE), "name {name}");
        assert_eq!(inside(assign(name, deref(12))), answer_refused(13, INSIDE), "name {name}");
    }
    // The value's code is 2 less.
    assert_eq!(inside(assign(12, num(0))), Answer::Command);
    assert_eq!(inside(assign(13, boo(true))), Answer::Command);
    assert_eq!(inside(assign(12, boo(true))), answer_refused(11, INSIDE));
    assert_eq!(inside(assign(13, num(0))), answer_refused(11, INSIDE));
    assert_eq!(inside(assign(12, deref(12))), answer_refused(11, INSIDE));
}

#[test]
fn loops_test_is_judged_after_its_command() {
    assert_eq!(checked_tree(1, repeat(num(1), assign(0, unbound()))), answer_refused(10, 3));
    assert_eq!(checked_tree(1, repeat(num(1), assign(0, num(0)))), answer_refused(11, 0));
    assert_eq!(checked_tree(1, repeat(unbound(), assign(0, not(num(0))))), answer_refused(10, 1));
    assert_eq!(checked_tree(1, repeat(deref(0), assign(0, num(0)))), answer_refused(11, 0));
    assert_eq!(checked_tree(1, repeat(boo(false), assign(0, num(0)))), Answer::Command);
}

#[test]
fn a_name_on_both_sides_of_a_dseq_is_12_after_the_childrens_faults() {
    let then = || assign(0, num(0));
    let twice = dseq(bind(1, num(0)), bind(1, boo(true)));
    assert_eq!(checked_tree(1, blk(twice, then())), answer_refused(12, 1));
    // The second child's fault comes first, though it repeats the name.
    let fault = dseq(bind(1, num(0)), bind(1, unbound()));
    assert_eq!(checked_tree(1, blk(fault, then())), answer_refused(10, 5));
    // Nested: the name is on both sides of the outer DSeq alone.
    let nested =
        dseq(dseq(bind(1, num(0)), bind(2, num(0))), dseq(bind(3, num(0)), bind(1, num(0))));
    assert_eq!(checked_tree(1, blk(nested, then())), answer_refused(12, 1));
    // Nested the other way: the inner DSeq is judged first.
    let inner = dseq(bind(1, num(0)), dseq(bind(1, num(0)), bind(1, num(0))));
    assert_eq!(checked_tree(1, blk(inner, then())), answer_refused(12, 4));
    // The Blk's command is looked at only after its declaration.
    let twice = dseq(bind(1, num(0)), bind(1, boo(true)));
    assert_eq!(checked_tree(1, blk(twice, assign(0, unbound()))), answer_refused(12, 1));
    // A register's name on one side repeats nothing.
    assert_eq!(
        checked_tree(1, blk(dseq(bind(0, num(0)), bind(1, num(0))), assign(0, num(0)))),
        answer_refused(13, 6)
    );
    // A function's name counts like any other.
    let function = || bind_abs(1, &[], block(bind(2, num(0)), assign(0, num(0))));
    let twice = dseq(function(), bind(1, num(0)));
    assert_eq!(checked_tree(1, blk(twice, then())), answer_refused(12, 1));
}

#[test]
fn a_bind_does_not_see_its_own_name() {
    assert_eq!(checked_tree(1, blk(bind(1, id(1)), assign(0, num(0)))), answer_refused(10, 2));
    assert_eq!(
        checked_tree(1, blk(bind_ref(1, deref(1)), assign(0, num(0)))),
        answer_refused(10, 3)
    );
}

#[test]
fn inner_names_hide_outer_ones_until_the_block_is_left() {
    // Name 0 is a boolean cell inside, the register outside.
    let inner = |value| blk(bind_ref(0, boo(true)), assign(0, value));
    assert_eq!(checked_tree(1, inner(boo(false))), Answer::Command);
    assert_eq!(checked_tree(1, inner(num(1))), answer_refused(11, 4));
    assert_eq!(checked_tree(1, cseq(inner(boo(false)), assign(0, num(1)))), Answer::Command);
    assert_eq!(
        checked_tree(1, cseq(inner(boo(false)), assign(0, boo(true)))),
        answer_refused(11, 7)
    );
    // A name of an inner block is unbound after it.
    let block = blk(bind(5, num(0)), assign(0, id(5)));
    assert_eq!(checked_tree(1, cseq(block, assign(0, id(5)))), answer_refused(10, 7));
}

#[test]
fn a_repeated_formal_is_12_where_it_is_met_before_the_blk() {
    let function =
        |formals: &[(Name, Code)], body| blk(bind_abs(1, formals, body), assign(0, num(0)));
    let faulty = || block(bind(2, unbound()), assign(0, num(0)));
    assert_eq!(checked_tree(1, function(&[(2, 0), (2, 0)], faulty())), answer_refused(12, 4));
    assert_eq!(
        checked_tree(1, function(&[(2, 0), (3, 1), (2, 5)], faulty())),
        answer_refused(12, 5)
    );
    assert_eq!(
        checked_tree(1, function(&[(2, 0), (3, 1), (3, 5), (2, 1)], faulty())),
        answer_refused(12, 5)
    );
    // Without the repetition the body's fault is found.
    assert_eq!(checked_tree(1, function(&[(2, 0), (3, 0)], faulty())), answer_refused(10, 7));
    // A Formal may have the name of the function or of anything around.
    let body = block(bind(2, num(0)), assign(0, num(0)));
    assert_eq!(checked_tree(1, function(&[(1, 0), (2, 0)], body)), Answer::Command);
}

#[test]
fn a_function_never_called_is_checked_and_so_is_a_loop_never_entered() {
    let body = block(bind(2, num(0)), assign(0, unbound()));
    assert_eq!(
        checked_tree(1, blk(bind_abs(1, &[], body), assign(0, num(0)))),
        answer_refused(10, 7)
    );
    assert_eq!(checked_tree(1, repeat(boo(false), assign(0, boo(true)))), answer_refused(11, 2));
}

#[test]
fn a_function_does_not_see_its_own_name() {
    // Unbound inside, where nothing around has the name.
    let body = || block(bind(2, num(0)), call(1, vec![]));
    assert_eq!(
        checked_tree(0, blk(bind_abs(1, &[], body()), call(1, vec![]))),
        answer_refused(10, 6)
    );
    // With a register of that name, it is no function inside: 14.
    assert_eq!(
        checked_tree(2, blk(bind_abs(1, &[], body()), call(1, vec![]))),
        answer_refused(14, 6)
    );
    // Inside, the name means what it meant around the Bind.
    let body = block(bind(2, num(0)), assign(1, sum(id(1), num(1))));
    assert_eq!(checked_tree(2, blk(bind_abs(1, &[], body), call(1, vec![]))), Answer::Command);
}

#[test]
fn formals_hide_names_around_and_the_blks_names_hide_formals() {
    let function = |body| blk(bind_abs(5, &[(0, 1)], body), call(5, vec![boo(true)]));
    // Name 0 is a plain boolean in the body, no register.
    let body = block(bind(2, not(id(0))), repeat(id(0), assign(0, num(0))));
    assert_eq!(checked_tree(1, function(body)), answer_refused(13, 10));
    let body = block(bind(0, num(1)), repeat(id(0), assign(0, num(0))));
    assert_eq!(checked_tree(1, function(body)), answer_refused(13, 9));
    let body = block(bind_ref(0, num(1)), assign(0, num(2)));
    assert_eq!(checked_tree(1, function(body)), Answer::Command);
}

#[test]
fn call_judges_its_actuals_then_10_then_14_then_11() {
    let body = || block(bind(9, num(0)), assign(0, num(0)));
    let with = |formals: &[(Name, Code)], command| blk(bind_abs(1, formals, body()), command);
    // With no Formals the Call stands at 8, with two at 10.
    let none: &[(Name, Code)] = &[];
    let two: &[(Name, Code)] = &[(2, 0), (3, 1)];
    assert_eq!(checked_tree(1, with(none, call(1, vec![]))), Answer::Command);
    assert_eq!(checked_tree(1, with(two, call(1, vec![num(1), boo(true)]))), Answer::Command);
    // An actual's fault, the first of them, before the Call's own.
    assert_eq!(
        checked_tree(1, with(two, call(50, vec![num(1), unbound()]))),
        answer_refused(10, 12)
    );
    assert_eq!(
        checked_tree(1, with(two, call(50, vec![not(num(1)), unbound()]))),
        answer_refused(11, 11)
    );
    assert_eq!(checked_tree(1, with(two, call(0, vec![unbound()]))), answer_refused(10, 11));
    // Unbound, though the count and codes would be wrong too.
    assert_eq!(checked_tree(1, with(two, call(50, vec![boo(true)]))), answer_refused(10, 10));
    // No function, or another count: 14 before any code.
    assert_eq!(checked_tree(1, with(none, call(0, vec![]))), answer_refused(14, 8));
    assert_eq!(checked_tree(1, with(none, call(1, vec![num(0)]))), answer_refused(14, 8));
    assert_eq!(checked_tree(1, with(two, call(1, vec![boo(true)]))), answer_refused(14, 10));
    assert_eq!(checked_tree(1, with(two, call(1, vec![boo(true); 3]))), answer_refused(14, 10));
    // Codes equal to the Formals', in their order.
    assert_eq!(
        checked_tree(1, with(two, call(1, vec![boo(true), num(1)]))),
        answer_refused(11, 10)
    );
    assert_eq!(checked_tree(1, with(two, call(1, vec![num(1), num(1)]))), answer_refused(11, 10));
    assert_eq!(
        checked_tree(1, with(two, call(1, vec![deref(0), boo(true)]))),
        answer_refused(11, 10)
    );
}

#[test]
fn functions_see_earlier_functions_around_them() {
    let first = bind_abs(1, &[], block(bind(9, num(0)), assign(0, num(1))));
    let second = bind_abs(2, &[], block(bind(9, num(0)), call(1, vec![])));
    assert_eq!(
        checked_tree(1, blk(first.clone(), blk(second.clone(), call(2, vec![])))),
        Answer::Command
    );
    // Within one DSeq too, and not the other way round.
    assert_eq!(
        checked_tree(1, blk(dseq(first.clone(), second.clone()), call(2, vec![]))),
        Answer::Command
    );
    assert_eq!(checked_tree(1, blk(dseq(second, first), call(2, vec![]))), answer_refused(10, 7));
}
