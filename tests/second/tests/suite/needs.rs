//! The needs of each kind of node, worked out by hand: control entries, value entries,
//! cells, bindings and steps, in this order. And of the paper's cases.

use crate::helpers::*;
use second::build::*;
use second::needs::{Figures, Needs};
use second::tree::*;

/// Assign(0, 1): its name and its value on V, and the value over the mark on control.
fn set() -> Command {
    assign(0, num(1))
}

/// So many Sums, each the first operand of the one around it: two entries of control each.
fn to_the_left(sums: usize) -> Expression {
    (0..sums).fold(num(1), |inner, _| sum(inner, num(1)))
}

/// So many Sums, each the second operand of the one around it: an entry of each stack.
fn to_the_right(sums: usize) -> Expression {
    (0..sums).fold(num(1), |inner, _| sum(num(1), inner))
}

/// A Blk around Assign(0, 1).
fn around_set(declaration: Declaration) -> Command {
    blk(declaration, set())
}

#[test]
fn no_routine() {
    for registers in 0..=16 {
        let count = registers as usize;
        assert_eq!(needed_tree(registers, absent()), given(0, 0, count, count, 0));
    }
}

#[test]
fn leaves() {
    for leaf in [num(7), boo(true), id(0), deref(0)] {
        assert_eq!(needed_tree(1, leaf), given(1, 1, 1, 1, 1));
    }
    // A ValRef, where there is a cell that shows another: as an Id there.
    let inside = |value| blk(bind_ref(1, deref(0)), assign(0, value));
    assert_eq!(needed_tree(1, inside(valref(1))), given(6, 4, 2, 2, 11));
    assert_eq!(needed_tree(1, inside(id(0))), given(6, 4, 2, 2, 11));
}

/// The registers are there, as cells and as bindings, whether they are used or not.
#[test]
fn registers_count() {
    for registers in 0..=16 {
        let count = registers as usize;
        assert_eq!(needed_tree(registers, num(1)), given(1, 1, count, count, 1));
    }
}

#[test]
fn operations() {
    use Operator::*;
    for operator in [Sum, Sub, Mul, Div, Eq, Lt, Le, Gt, Ge] {
        assert_eq!(needed_tree(0, binary(operator, num(1), num(2))), given(3, 2, 0, 0, 4));
    }
    for operator in [Eq, And, Or] {
        let truths = binary(operator, boo(true), boo(false));
        assert_eq!(needed_tree(0, truths), given(3, 2, 0, 0, 4));
    }
    assert_eq!(needed_tree(0, not(boo(true))), given(2, 1, 0, 0, 3));
    assert_eq!(needed_tree(0, not(not(boo(true)))), given(3, 1, 0, 0, 5));
    // The first operand runs over the second, the second over the first one's value.
    assert_eq!(needed_tree(0, sum(sum(num(1), num(1)), num(1))), given(5, 2, 0, 0, 7));
    assert_eq!(needed_tree(0, sum(num(1), sum(num(1), num(1)))), given(4, 3, 0, 0, 7));
    for sums in 1..20 {
        let steps = 3 * sums as u64 + 1;
        assert_eq!(needed_tree(0, to_the_left(sums)), given(2 * sums + 1, 2, 0, 0, steps));
        assert_eq!(needed_tree(0, to_the_right(sums)), given(sums + 2, sums + 1, 0, 0, steps));
    }
}

/// What a run would be withheld for is no matter: some integer is the result.
#[test]
fn faults_of_arithmetic_are_gone_over() {
    assert_eq!(needed_tree(0, div(num(1), num(0))), given(3, 2, 0, 0, 4));
    let out_of_range = mul(num(u32::MAX), num(u32::MAX));
    assert_eq!(needed_tree(0, sum(out_of_range, to_the_right(2))), given(5, 4, 0, 0, 13));
    let both = cseq(assign(0, div(num(1), num(0))), assign(0, to_the_right(3)));
    assert_eq!(needed_tree(1, both), given(6, 5, 1, 1, 1 + 6 + 12));
}

#[test]
fn assign_and_cseq() {
    assert_eq!(needed_tree(1, set()), given(2, 2, 1, 1, 3));
    assert_eq!(needed_tree(3, assign(2, to_the_left(4))), given(10, 3, 3, 3, 15));
    assert_eq!(needed_tree(1, cseq(set(), set())), given(3, 2, 1, 1, 7));
    // The first command runs over the second; the second over nothing.
    assert_eq!(needed_tree(1, cseq(assign(0, to_the_left(4)), set())), given(11, 3, 1, 1, 19));
    assert_eq!(needed_tree(1, cseq(set(), assign(0, to_the_left(4)))), given(10, 3, 1, 1, 19));
}

/// The Cond is an entry of V while its test runs, and its mark one of control.
#[test]
fn choices() {
    let either = |test| cond(test, set(), set());
    assert_eq!(needed_tree(1, either(boo(true))), given(2, 2, 1, 1, 6));
    assert_eq!(needed_tree(1, either(boo(false))), given(2, 2, 1, 1, 6));
    assert_eq!(needed_tree(1, either(lt(num(1), to_the_right(3)))), given(7, 6, 1, 1, 18));
}

/// Of two commands the larger one counts for each figure: one has more control entries,
/// cells and bindings, the other more value entries and steps.
#[test]
fn cond_takes_the_larger_of_each_figure() {
    let both = |first, second| needed_tree(1, cond(boo(true), first, second));
    let cells = || around_set(dseq(bind_ref(1, num(1)), bind_ref(2, num(1))));
    let long = || commands(vec![set(), set(), assign(0, to_the_right(4))]);
    assert_eq!(both(cells(), cells()), given(9, 5, 3, 3, 3 + 19));
    assert_eq!(both(long(), long()), given(7, 6, 1, 1, 3 + 23));
    assert_eq!(both(cells(), long()), given(9, 6, 3, 3, 3 + 23));
    assert_eq!(both(long(), cells()), given(9, 6, 3, 3, 3 + 23));
    // Also where the test is a truth, or the other command holds a Cond again.
    let inner = cond(boo(false), set(), cells());
    assert_eq!(both(long(), inner), given(9, 6, 3, 3, 3 + 23));
    let inner = cond(boo(false), long(), set());
    assert_eq!(both(cells(), inner), given(9, 6, 3, 3, 3 + 3 + 23));
}

/// One Cond after another: the larger command of each, though one test decides both.
#[test]
fn tests_fall_apart() {
    let cells = || around_set(dseq(bind_ref(1, num(1)), bind_ref(2, num(1))));
    let decided = || eq(id(0), num(3));
    let two = cseq(cond(decided(), cells(), set()), cond(decided(), set(), cells()));
    // The first runs over the second: one more on control.
    assert_eq!(needed_tree(1, two), given(10, 5, 3, 3, 1 + 2 * (2 + 4 + 19)));
}

/// A Loop's command runs over the Loop itself. Its test may be true though it never is.
#[test]
fn loops() {
    assert_eq!(needed_tree(1, repeat(boo(true), set())), open(3, 2, 1, 1));
    assert_eq!(needed_tree(1, repeat(boo(false), set())), open(3, 2, 1, 1));
    assert_eq!(needed_tree(1, repeat(lt(num(1), to_the_right(3)), set())), open(7, 6, 1, 1));
    let command = around_set(dseq(bind_ref(1, num(1)), bind_ref(2, num(1))));
    assert_eq!(needed_tree(1, repeat(boo(false), command.clone())), open(10, 5, 3, 3));
    // One in the other: each round leaves what was there.
    let inner = repeat(boo(false), command);
    assert_eq!(needed_tree(1, repeat(boo(true), inner.clone())), open(11, 5, 3, 3));
    assert_eq!(needed_tree(1, cseq(inner, set())), open(11, 5, 3, 3));
    assert_eq!(needed_tree(2, factorial()), open(6, 3, 2, 2));
}

#[test]
fn blocks_and_declarations() {
    // The Blk's four entries and the Bind's one more; the Assign over the saved two.
    assert_eq!(needed_tree(1, around_set(bind(1, num(1)))), given(5, 4, 1, 2, 9));
    assert_eq!(needed_tree(1, around_set(bind_ref(1, num(1)))), given(6, 4, 2, 2, 11));
    assert_eq!(needed_tree(1, around_set(bind(1, to_the_left(4)))), given(13, 4, 1, 2, 21));
    assert_eq!(needed_tree(1, around_set(bind(1, to_the_right(4)))), given(10, 7, 1, 2, 21));
    assert_eq!(needed_tree(1, around_set(bind_ref(1, to_the_right(4)))), given(11, 7, 2, 2, 23));
    // A declaration whose value is the only high one; and a command that is.
    let high = |sums| blk(bind(1, num(1)), assign(0, to_the_right(sums)));
    assert_eq!(needed_tree(1, high(9)), given(13, 13, 1, 2, 9 + 27));
}

/// The first declaration runs over both marks and the second declaration, the second
/// over the E that is kept and the first one's environment.
#[test]
fn sequences_of_declarations() {
    let two = |first, second| needed_tree(1, around_set(dseq(first, second)));
    assert_eq!(two(bind(1, num(1)), bind(2, num(1))), given(8, 5, 1, 3, 15));
    assert_eq!(two(bind_ref(1, num(1)), bind(2, num(1))), given(9, 5, 2, 3, 17));
    assert_eq!(two(bind(1, num(1)), bind_ref(2, num(1))), given(8, 5, 2, 3, 17));
    let (one, other) = (|| bind(1, num(1)), || bind(2, num(1)));
    assert_eq!(two(bind(3, to_the_right(4)), other()), given(13, 7, 1, 3, 27));
    assert_eq!(two(one(), bind(3, to_the_right(4))), given(11, 9, 1, 3, 27));
    // Three of them, both ways round.
    let third = || bind(3, num(1));
    assert_eq!(two(dseq(one(), other()), third()), given(11, 5, 1, 4, 21));
    assert_eq!(two(one(), dseq(other(), third())), given(9, 7, 1, 4, 21));
}

/// What a block declares is there until it is left, and no longer.
#[test]
fn nested_blocks_and_blocks_in_turn() {
    let cells = |first: Name, count: Name| {
        declarations((first..first + count).map(|name| bind_ref(name, num(1))).collect())
    };
    let of = |command| match needed_tree(1, command) {
        Needs::Figures(Figures { room, .. }) => (room.cells, room.bindings),
        other => panic!("{other:?}"),
    };
    let five = || around_set(cells(1, 5));
    let three = || around_set(cells(1, 3));
    assert_eq!(of(cseq(five(), three())), (6, 6));
    assert_eq!(of(cseq(three(), five())), (6, 6));
    assert_eq!(of(blk(cells(11, 2), cseq(five(), three()))), (8, 8));
    assert_eq!(of(blk(cells(11, 2), blk(cells(1, 5), three()))), (11, 11));
    // Behind a block there is room for as much again.
    assert_eq!(of(blk(cells(11, 2), cseq(five(), blk(cells(21, 4), three())))), (10, 10));
    // The same names again count again.
    assert_eq!(of(blk(cells(1, 5), blk(cells(1, 5), five()))), (16, 16));
    let plain = |count: Name| declarations((1..=count).map(|name| bind(name, num(1))).collect());
    assert_eq!(of(cseq(around_set(plain(7)), three())), (4, 8));
    assert_eq!(of(blk(plain(7), three())), (4, 11));
}

/// The paper's cases, with the steps that the paper has for their runs.
#[test]
fn cases() {
    assert_eq!(needed(&[5, 0, 6, 1, 4, 1, 1, 0, 5, 0, 3, 2]), given(4, 3, 0, 0, 7));
    assert_eq!(needed_tree(0, sub(num(3), num(5))), given(3, 2, 0, 0, 4));
    assert_eq!(needed_tree(0, div(num(1), num(0))), given(3, 2, 0, 0, 4));
    assert_eq!(needed_tree(1, div(id(0), num(2))), given(3, 2, 1, 1, 4));
    let cell = blk(bind_ref(1, id(0)), assign(0, sum(id(1), id(1))));
    assert_eq!(needed_tree(1, cell), given(6, 5, 2, 2, 14));
    let body = block(bind_ref(3, id(2)), assign(0, id(3)));
    let function = blk(bind_abs(1, &[(2, 0)], body), call(1, vec![num(7)]));
    assert_eq!(needed_tree(1, function), given(8, 8, 2, 4, 21));
    let location = blk(bind_ref(1, deref(0)), assign(0, sum(valref(1), num(1))));
    assert_eq!(needed_tree(1, location), given(6, 5, 2, 2, 14));
    let unassignable = blk(bind_ref(1, deref(0)), assign(1, deref(0)));
    assert_eq!(needed_tree(1, unassignable), needs_refused(13, 4));
    let later = blk(dseq(bind_ref(1, num(1)), bind_ref(2, id(1))), assign(1, num(0)));
    assert_eq!(needed_tree(0, later), given(9, 5, 2, 2, 19));
}
