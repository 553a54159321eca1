//! Calls: what a function's names mean, whose cells a call frees, Formals of
//! every count, calls within calls.

use crate::helpers::*;
use second::build::*;
use second::tree::{Blk, Command, Name};

/// A function's Blk with a cell of its own.
fn body(command: Command) -> Blk {
    block(bind_ref(50, num(1)), command)
}

/// Functions declared at every depth of blocks that all bind name 5 anew, called
/// from the innermost: each sees the 5 of its own depth.
#[test]
fn functions_of_every_depth_called_from_the_innermost() {
    const DEPTH: u32 = 10;
    let function = |level: u32| 10 + level;
    let add = || assign(0, sum(mul(id(0), num(11)), id(5)));
    let calls = in_turn((0..DEPTH).map(|level| call(function(level), vec![])).collect());
    let root = (0..DEPTH).rev().fold(cseq(calls, add()), |inner, level| {
        // The function stands inside the block whose 5 it means.
        let declare = bind_abs(function(level), &[], body(add()));
        blk(bind(5, num(level)), blk(declare, inner))
    });
    let order = (0..i64::from(DEPTH)).chain([i64::from(DEPTH) - 1]);
    let expected = order.fold(0, |total, level| 11 * total + level);
    assert_eq!(registers_after(root, &[0]), [expected]);
}

/// A function that calls another, which was declared where names mean other
/// things than at the call, through three of them.
#[test]
fn names_are_the_declarations_not_the_callers() {
    let add = |name| assign(0, sum(mul(id(0), num(10)), id(name)));
    let first = bind_abs(10, &[], body(add(5)));
    let second = bind_abs(11, &[(5, 0)], body(cseq(add(5), cseq(call(10, vec![]), add(5)))));
    let third =
        bind_abs(12, &[(5, 0), (6, 0)], body(cseq(call(11, vec![id(6)]), cseq(add(5), add(6)))));
    let inner = blk(bind_ref(5, num(9)), cseq(call(12, vec![num(3), num(4)]), add(5)));
    let root =
        blk(bind(5, num(1)), blk(first, blk(second, blk(bind(5, num(8)), blk(third, inner)))));
    assert_eq!(registers_after(root, &[0]), [414_349]);
}

/// Actuals in the order of the Formals, for each count and with each actual an
/// expression of its own length.
#[test]
fn formals_of_every_count() {
    for count in 0..=8 {
        let formals: Vec<(Name, u32)> = (0..count).map(|index| (20 + index, 0)).collect();
        let names: Vec<Name> = formals.iter().map(|(name, _)| *name).collect();
        let read = if count == 0 { assign(0, num(0)) } else { gather(&names) };
        let sums = |index: u32| (0..index % 4).fold(num(index), |value, _| sum(value, num(1)));
        let root = blk(bind_abs(1, &formals, body(read)), call(1, (0..count).map(sums).collect()));
        let value = |index: u32| i64::from(index + index % 4);
        assert_eq!(registers_after(root, &[0]), [gathered((0..count).map(value))]);
    }
}

/// A fault in two of the actuals: the later one's is met.
#[test]
fn actuals_run_last_to_first() {
    for count in 2..=8_usize {
        let formals: Vec<(Name, u32)> = (0..count as u32).map(|index| (20 + index, 0)).collect();
        for first in 0..count {
            for second in 0..count {
                let mut actuals = vec![num(1); count];
                actuals[first] = div(num(1), num(0));
                actuals[second] = mul(id(0), id(0));
                let root = blk(bind_abs(1, &formals, body(assign(0, num(1)))), call(1, actuals));
                let refused = if first > second { 31 } else { 32 };
                assert_eq!(agreed_tree_run(root, &[i64::MAX]).refused(), refused);
            }
        }
    }
}

/// Formals of every code, with names of cells as actuals: what the function
/// stores through them the caller sees.
#[test]
fn formals_of_every_code() {
    let formals = [(20, 0), (21, 1), (22, 2), (23, 3), (24, 4), (25, 5), (26, 6), (27, 7)];
    let set = commands(vec![
        assign(22, sum(id(20), id(22))),
        assign(23, and(id(21), id(23))),
        assign(0, sum(valref(24), id(22))),
        repeat(valref(25), assign(23, boo(false))),
        blk(bind(28, valref(26)), assign(28, sum(id(28), num(1)))),
        blk(bind(28, valref(27)), assign(28, boo(true))),
    ]);
    let actuals =
        vec![num(4), boo(true), deref(10), deref(11), deref(12), deref(13), deref(14), deref(15)];
    let read = commands(vec![
        call(9, actuals),
        assign(1, id(10)),
        repeat(id(11), cseq(assign(2, num(1)), assign(11, boo(false)))),
    ]);
    let cells = dseq(bind_ref(10, num(30)), bind_ref(11, boo(true)));
    let second = dseq(bind_ref(12, deref(10)), bind_ref(13, deref(11)));
    let third = dseq(bind_ref(14, deref(12)), bind_ref(15, deref(13)));
    let root = blk(cells, blk(second, blk(third, blk(bind_abs(9, &formals, body(set)), read))));
    assert_eq!(registers_after(root, &[0, 0, 0]), [68, 35, 1]);
}

/// The caller's block has cells from before the call; the function makes its own
/// and a block inside makes more; then the caller makes more, reads all of its
/// own, and is left. Round after round nothing is lost and nothing is kept.
#[test]
fn a_call_frees_its_own_cells_alone() {
    let inner = blk(dseq(bind_ref(51, num(5)), bind_ref(52, num(6))), assign(51, id(52)));
    let function = bind_abs(9, &[(20, 0)], body(cseq(inner, assign(50, id(20)))));
    let after = blk(bind_ref(12, num(100)), gather(&[10, 11, 12]));
    let caller = blk(
        dseq(bind_ref(10, id(1)), bind_ref(11, num(7))),
        commands(vec![assign(0, num(0)), call(9, vec![id(10)]), call(9, vec![num(3)]), after]),
    );
    let rounds = repeat(gt(id(1), num(0)), cseq(caller, assign(1, sub(id(1), num(1)))));
    // 300 rounds would not do if a cell were kept in each.
    let root = blk(function, rounds);
    assert_eq!(registers_after(root.clone(), &[0, 2]), [gathered([1, 7, 100]), 0]);
    assert_eq!(registers_after(root, &[0, 300]), [gathered([1, 7, 100]), 0]);
}

/// Each function calls the one before it twice: 2^9 calls of the first.
#[test]
fn calls_within_calls() {
    let add = assign(0, sum(id(0), id(20)));
    let mut root = call(10 + 9, vec![num(1)]);
    for level in (1..10).rev() {
        let down = || call(10 + level - 1, vec![id(20)]);
        let function = bind_abs(10 + level, &[(20, 0)], body(cseq(down(), down())));
        root = blk(function, root);
    }
    root = blk(bind_abs(10, &[(20, 0)], body(add)), root);
    assert_eq!(registers_after(root, &[0]), [512]);
}

/// A Formal with the function's own name, a register's name, a name of the
/// closure; and the Blk's own name over a Formal.
#[test]
fn formals_hide_and_are_hidden() {
    let formals = [(1, 0), (0, 0), (5, 0)];
    let function = bind_abs(1, &formals, block(bind(0, num(4)), assign(2, id(0))));
    let root = blk(bind(5, num(3)), blk(function, call(1, vec![num(7), num(8), num(9)])));
    assert_eq!(registers_after(root, &[1, 2, 3]), [1, 2, 4]);
    let read = assign(2, sum(mul(id(1), num(100)), sum(mul(id(0), num(10)), id(5))));
    let function = bind_abs(1, &formals, block(bind(9, num(4)), read));
    let root = blk(bind(5, num(3)), blk(function, call(1, vec![num(7), num(8), num(9)])));
    assert_eq!(registers_after(root, &[1, 2, 3]), [1, 2, 789]);
}
