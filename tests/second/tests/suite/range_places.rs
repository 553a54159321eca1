//! Where 44 stands: the first operation in running order that is not safe, operands before
//! their operation, actuals last to first, a function's Blk where it is called, and a Cond's
//! first command before its second.

use crate::helpers::*;
use second::build::*;
use second::node::Node;
use second::reader::read;
use second::tree::*;

/// Operations that are not safe, told apart by their kinds: a quotient, a product.
fn quotient() -> Expression {
    div(num(1), num(0))
}

fn product() -> Expression {
    mul(mul(num(u32::MAX), num(1)), num(u32::MAX))
}

const STARTS: [(i64, i64); 2] = [(0, 10), (0, 0)];

/// The place of the one node of the tree that is a Div, or of the outermost Mul.
fn place_of(root: Command, operator: Operator) -> u32 {
    let routine = read(&image(2, root)).expect("a tree");
    let listed = routine.root.preorder();
    let found = listed.iter().find(|(node, _)| match node {
        Node::Expression(Expression { form: Form::Binary(found, ..), .. }) => *found == operator,
        _ => false,
    });
    found.expect("the operation").0.place()
}

/// The refusal is 44 at the tree's Div, or at its Mul.
fn stands_at(root: Command, operator: Operator) {
    let place = place_of(root.clone(), operator);
    assert_eq!(ends_of(root.clone(), &STARTS), ends_refused(44, place), "{root:?}");
}

fn at_the_quotient(root: Command) {
    stands_at(root, Operator::Div);
}

fn at_the_product(root: Command) {
    stands_at(root, Operator::Mul);
}

#[test]
fn each_operation_at_its_own_node() {
    let most = || sub(mul(mul(num(1 << 31), num(1 << 31)), num(2)), num(1));
    let greatest = sum(most(), sub(mul(mul(num(1 << 31), num(1 << 31)), num(2)), num(0)));
    assert_eq!(ends_of(assign(0, greatest), &STARTS), ends_refused(44, 3));
    for (operator, starts) in [
        (Operator::Sum, (0, i64::MAX)),
        (Operator::Sub, (-2, 0)),
        (Operator::Mul, (0, 2)),
        (Operator::Div, (0, 5)),
    ] {
        let (left, right) = match operator {
            Operator::Sum => ((0, 1), starts),
            Operator::Sub => ((0, i64::MAX), starts),
            Operator::Mul => ((0, 1 << 62), starts),
            _ => ((1, 1), starts),
        };
        let root = cseq(assign(0, id(0)), assign(1, binary(operator, id(0), id(1))));
        assert_eq!(ends_of(root, &[left, right]), ends_refused(44, 4), "{operator:?}");
    }
}

/// Operands before their operation, the first before the second.
#[test]
fn in_operands() {
    at_the_quotient(assign(0, sum(quotient(), product())));
    at_the_product(assign(0, sum(product(), quotient())));
    // The outer operation is not reached.
    at_the_quotient(assign(0, mul(num(1), sum(num(1), quotient()))));
    let outer = mul(num(u32::MAX), mul(num(u32::MAX), num(4)));
    assert_eq!(ends_of(assign(0, outer), &STARTS), ends_refused(44, 1));
    // In comparisons and in both sides of And and Or, whatever the first side is.
    let blocked = |test| cond(test, assign(0, num(1)), assign(0, num(2)));
    at_the_quotient(blocked(lt(quotient(), product())));
    at_the_quotient(blocked(and(boo(false), eq(num(0), quotient()))));
    at_the_quotient(blocked(or(boo(true), not(eq(quotient(), num(0))))));
}

#[test]
fn one_command_before_another() {
    at_the_quotient(cseq(assign(0, quotient()), assign(0, product())));
    at_the_product(cseq(assign(0, product()), assign(0, quotient())));
    at_the_quotient(cseq(cseq(assign(0, num(1)), assign(1, quotient())), assign(0, product())));
}

/// A Cond's test before its commands; the first command before the second, whichever a run
/// would take; and both before what stands behind the Cond.
#[test]
fn in_the_commands_of_a_choice() {
    let open = || lt(id(0), num(5));
    let divides = || assign(1, quotient());
    let multiplies = || assign(1, product());
    let set = || assign(1, num(1));
    at_the_quotient(cond(gt(quotient(), num(0)), multiplies(), set()));
    at_the_quotient(cond(open(), divides(), multiplies()));
    at_the_product(cond(open(), multiplies(), divides()));
    at_the_quotient(cond(open(), set(), divides()));
    at_the_product(cseq(cond(open(), set(), multiplies()), divides()));
    at_the_quotient(cond(boo(false), multiplies(), divides()));
    at_the_quotient(cseq(cond(boo(true), set(), multiplies()), divides()));
    // Within each other: the first of the first.
    let inner = cond(open(), set(), divides());
    at_the_quotient(cond(open(), inner.clone(), multiplies()));
    at_the_product(cond(open(), multiplies(), inner));
}

/// Declarations before the command of their block, in their order.
#[test]
fn in_declarations() {
    at_the_quotient(blk(bind(9, quotient()), assign(0, product())));
    at_the_quotient(blk(bind_ref(9, quotient()), assign(0, product())));
    at_the_product(blk(dseq(bind(9, product()), bind(8, quotient())), assign(0, num(1))));
    at_the_quotient(blk(dseq(bind(9, num(1)), bind_ref(8, quotient())), assign(0, product())));
}

fn function(name: Name, formals: &[(Name, Code)], command: Command) -> Declaration {
    bind_abs(name, formals, block(bind(60, num(0)), command))
}

/// Actuals last to first, and all of them before the function's Blk.
#[test]
fn in_actuals() {
    let three = || function(10, &[(20, 0), (21, 0), (22, 0)], assign(0, id(20)));
    let called = |actuals| blk(three(), call(10, actuals));
    at_the_product(called(vec![quotient(), num(1), product()]));
    at_the_quotient(called(vec![product(), quotient(), num(1)]));
    at_the_quotient(called(vec![quotient(), num(1), num(1)]));
    at_the_quotient(called(vec![product(), num(1), quotient()]));
    let faulty = function(10, &[(20, 0)], assign(0, product()));
    at_the_quotient(blk(faulty, call(10, vec![quotient()])));
}

/// In a function's Blk, which stands before the Call in the tree; where a function calls
/// another, in that one.
#[test]
fn in_a_function() {
    let faulty = || function(10, &[], assign(0, quotient()));
    at_the_quotient(blk(faulty(), call(10, vec![])));
    at_the_quotient(blk(faulty(), cseq(call(10, vec![]), assign(0, product()))));
    at_the_product(blk(faulty(), cseq(assign(0, product()), call(10, vec![]))));
    let outer = || function(11, &[], cseq(call(10, vec![]), assign(0, product())));
    at_the_quotient(blk(dseq(faulty(), outer()), call(11, vec![])));
    let behind = function(11, &[], cseq(assign(0, product()), call(10, vec![])));
    at_the_product(blk(dseq(faulty(), behind), call(11, vec![])));
    // In the declaration of the function's own Blk.
    let declares = bind_abs(10, &[], block(bind(60, quotient()), assign(0, product())));
    at_the_quotient(blk(declares, call(10, vec![])));
}

/// The same node may be safe in one call and not in the next.
#[test]
fn safe_once_and_not_again() {
    let halve = function(10, &[(20, 0)], assign(0, div(num(100), id(20))));
    let calls = |last| blk(halve.clone(), cseq(call(10, vec![num(4)]), call(10, vec![last])));
    let of_the_first = ends_of(calls(num(5)), &STARTS);
    assert_eq!(of_the_first, Ok(vec![(20, 20), (0, 0)]));
    at_the_quotient(calls(id(1)));
    // Registers that the first call set are not told: a refusal keeps both lists.
    assert_eq!(ends_of(calls(num(0)), &STARTS), ends_refused(44, 8));
}
