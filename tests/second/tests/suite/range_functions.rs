//! Ranges of blocks, names and functions: plain values and cells, names that hide others,
//! locations, Formals of every code, and which names a function sees.

use crate::helpers::*;
use second::build::*;
use second::tree::*;

const STARTS: [(i64, i64); 2] = [(20, 40), (-3, 3)];

fn ends(command: Command) -> Vec<(i64, i64)> {
    ends_of(command, &STARTS).expect("ends")
}

/// A plain value is carried by its name; a cell can be set.
#[test]
fn plain_values_and_cells() {
    let body = cseq(assign(0, num(0)), assign(1, id(9)));
    assert_eq!(ends(blk(bind(9, id(0)), body.clone())), [(0, 0), (20, 40)]);
    assert_eq!(ends(blk(bind_ref(9, id(0)), body.clone())), [(0, 0), (20, 40)]);
    let set = cseq(assign(9, sum(id(9), id(1))), body);
    assert_eq!(ends(blk(bind_ref(9, id(0)), set)), [(0, 0), (17, 43)]);
}

/// The second declaration of a DSeq sees the first.
#[test]
fn declarations_that_see_others() {
    let names = dseq(bind(9, mul(id(0), num(2))), bind_ref(8, sum(id(9), id(1))));
    assert_eq!(ends(blk(names, assign(0, id(8))))[0], (37, 83));
    let three = declarations(vec![bind(7, id(1)), bind(8, id(7)), bind(9, sub(id(8), id(7)))]);
    assert_eq!(ends(blk(three, assign(0, id(9))))[0], (-6, 6));
}

/// An inner name hides an outer one, a register too, until its block is left.
#[test]
fn hidden_names() {
    let hidden = cseq(blk(bind_ref(0, num(5)), assign(0, num(6))), assign(1, id(0)));
    assert_eq!(ends(hidden), [(20, 40), (20, 40)]);
    let plain = blk(bind(0, num(5)), assign(1, id(0)));
    assert_eq!(ends(plain), [(20, 40), (5, 5)]);
    let twice = blk(bind_ref(9, num(1)), blk(bind_ref(9, num(2)), assign(9, num(3))));
    assert_eq!(ends(twice), STARTS);
}

/// DeRef, ValRef, and cells of cells' locations up to the third level.
#[test]
fn locations() {
    let one = blk(bind_ref(9, deref(0)), assign(1, valref(9)));
    assert_eq!(ends(one), [(20, 40), (20, 40)]);
    let named = blk(bind(9, deref(0)), cseq(assign(9, num(1)), assign(1, id(9))));
    assert_eq!(ends(named), [(1, 1), (1, 1)]);
    // A cell of a cell's location: Id of it is a location again.
    let two = blk(
        bind_ref(9, deref(0)),
        blk(bind_ref(8, deref(9)), blk(bind(7, valref(8)), assign(7, num(2)))),
    );
    assert_eq!(ends(two), [(2, 2), STARTS[1]]);
    // What is read by way of a location is what a Cond has left.
    let read =
        cseq(cond(gt(id(1), num(0)), assign(0, num(1)), assign(0, num(2))), assign(1, valref(9)));
    assert_eq!(ends(blk(bind_ref(9, deref(0)), read)), [(1, 2), (1, 2)]);
}

/// A function whose Blk runs this command with one name more.
fn function(name: Name, formals: &[(Name, Code)], command: Command) -> Declaration {
    bind_abs(name, formals, block(bind(60, num(0)), command))
}

/// Formals of plain codes and of locations, each actual for its own.
#[test]
fn formals_of_every_code() {
    let body = commands(vec![
        assign(21, sum(id(21), id(20))),
        cond(id(22), assign(23, boo(false)), assign(23, boo(true))),
    ]);
    let formals = [(20, 0), (21, 2), (22, 1), (23, 3)];
    let calls = |truth: Expression| {
        let called = call(10, vec![id(1), deref(0), truth, deref(9)]);
        let told = cond(id(9), assign(1, num(1)), assign(1, num(0)));
        let names = dseq(function(10, &formals, body.clone()), bind_ref(9, boo(true)));
        ends(blk(names, cseq(called, told)))
    };
    assert_eq!(calls(boo(true)), [(17, 43), (0, 0)]);
    assert_eq!(calls(boo(false)), [(17, 43), (1, 1)]);
    assert_eq!(calls(gt(id(1), num(0))), [(17, 43), (0, 1)]);
    // Codes 4 and 6: a cell of a location, and one of that one's.
    let deep = function(10, &[(20, 4), (21, 6)], cseq(assign(0, valref(20)), assign(1, num(8))));
    let names = declarations(vec![deep, bind_ref(8, deref(1)), bind_ref(7, deref(8))]);
    assert_eq!(ends(blk(names, call(10, vec![deref(8), deref(7)]))), [(-3, 3), (8, 8)]);
}

/// The first Formal is bound to the first actual, of eight.
#[test]
fn eight_actuals_in_their_order() {
    let formals: Vec<(Name, Code)> = (0..8).map(|index| (20 + index, 0)).collect();
    let gathered = (20..28).fold(num(0), |sums, name| sum(mul(sums, num(10)), id(name)));
    let actuals = (1..=8).map(|number| if number == 3 { id(1) } else { num(number) }).collect();
    let routine = blk(function(10, &formals, assign(0, gathered)), call(10, actuals));
    let middle = 12_045_678;
    assert_eq!(ends(routine)[0], (middle - 300_000, middle + 300_000));
}

/// A function sees the names around its Bind, not those around its Call; and their cells as
/// they are at the Call.
#[test]
fn the_names_around_the_bind() {
    let reads = function(10, &[], assign(1, id(9)));
    let hidden = blk(bind(9, num(99)), call(10, vec![]));
    let routine = blk(dseq(bind_ref(9, id(0)), reads.clone()), hidden);
    assert_eq!(ends(routine)[1], (20, 40));
    let set_before = cseq(assign(9, num(4)), call(10, vec![]));
    assert_eq!(ends(blk(dseq(bind_ref(9, id(0)), reads.clone()), set_before))[1], (4, 4));
    // A plain value is that of the Bind.
    let plain = blk(dseq(bind(9, id(0)), reads), cseq(assign(0, num(4)), call(10, vec![])));
    assert_eq!(ends(plain), [(4, 4), (20, 40)]);
    // A Formal hides them, and the function's name hides one of its own name.
    let formal = function(10, &[(9, 0)], assign(1, id(9)));
    let routine = blk(bind(9, num(1)), blk(formal, call(10, vec![num(6)])));
    assert_eq!(ends(routine)[1], (6, 6));
    let again = function(10, &[], cseq(call(10, vec![]), assign(0, sum(id(0), num(1)))));
    let twice = blk(function(10, &[], assign(0, num(5))), blk(again, call(10, vec![])));
    assert_eq!(ends(twice)[0], (6, 6));
}

/// Called twice a function is carried twice, each time over what there is.
#[test]
fn called_again_and_again() {
    let double = function(10, &[(20, 0)], assign(0, sum(id(0), id(20))));
    let calls = commands((0..5).map(|_| call(10, vec![id(0)])).collect());
    assert_eq!(ends(blk(double, calls))[0], (640, 1_280));
    let within =
        |inner: Name| function(inner + 1, &[], cseq(call(inner, vec![]), call(inner, vec![])));
    let up = function(10, &[], assign(0, sum(id(0), num(1))));
    let nested =
        (11..=16).rev().fold(call(16, vec![]), |command, name| blk(within(name - 1), command));
    assert_eq!(ends(blk(up, nested))[0], (20 + 64, 40 + 64));
}

/// The names and cells of a call are gone behind it, whatever its Blk has declared.
#[test]
fn what_a_call_leaves() {
    let cells = declarations((30..36).map(|name| bind_ref(name, id(20))).collect());
    let deep = bind_abs(10, &[(20, 0)], block(cells, assign(35, num(1))));
    let behind = blk(bind_ref(30, num(7)), cseq(call(10, vec![num(1)]), assign(1, id(30))));
    assert_eq!(ends(blk(deep, behind)), [(20, 40), (7, 7)]);
}

/// A function that no one calls is not carried; one that is called in a command that is not
/// carried is not either.
#[test]
fn functions_that_are_not_called() {
    let faulty = || function(10, &[], assign(1, div(num(1), num(0))));
    assert_eq!(ends(blk(faulty(), assign(0, num(1))))[0], (1, 1));
    let never = cond(boo(false), call(10, vec![]), assign(0, num(1)));
    assert_eq!(ends(blk(faulty(), never))[0], (1, 1));
}

/// A Cond in a function, and a function called in both commands.
#[test]
fn functions_and_choices() {
    let choose =
        function(10, &[(20, 0)], cond(gt(id(20), num(0)), assign(0, num(1)), assign(0, num(2))));
    let with = |actual| ends(blk(choose.clone(), call(10, vec![actual])))[0];
    assert_eq!(with(num(5)), (1, 1));
    assert_eq!(with(num(0)), (2, 2));
    assert_eq!(with(id(1)), (1, 2));
    let set = function(10, &[(20, 0)], assign(0, id(20)));
    let both = cond(gt(id(1), num(0)), call(10, vec![num(5)]), call(10, vec![id(1)]));
    assert_eq!(ends(blk(set, both))[0], (-3, 5));
}
