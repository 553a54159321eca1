//! Functions: closures, actuals, Formals, what a call leaves behind.

use crate::helpers::*;
use second::build::*;
use second::engine::{Outcome, MOST_BUDGET};
use second::execution::Execution;
use second::node::Node;
use second::reader::read;
use second::state::ControlEntry;
use second::tree::*;

/// A function's Blk that runs one command.
fn body(command: Command) -> Blk {
    block(bind(59, num(0)), command)
}

#[test]
fn steps_of_a_call() {
    // Blk, Bind, Abs, mark, first mark; Call, mark; Blk, Bind, Num, mark, first
    // mark, Assign, Num, mark, second mark; call's mark, second mark.
    let root = blk(bind_abs(1, &[], body(assign(0, num(1)))), call(1, vec![]));
    assert_eq!(outcome(root, &[0]), (Outcome::None, 18));
    // One step more for each actual.
    let root =
        blk(bind_abs(1, &[(2, 0), (3, 0)], body(assign(0, num(1)))), call(1, vec![num(0); 2]));
    assert_eq!(outcome(root, &[0]), (Outcome::None, 20));
}

/// The function sees name 1 as it was where it was declared, not the caller's.
#[test]
fn a_closure_keeps_the_names_of_its_declaration() {
    let function = bind_abs(2, &[], body(assign(0, id(1))));
    let root = blk(bind(1, num(5)), blk(function, blk(bind(1, num(7)), call(2, vec![]))));
    assert_eq!(registers_after(root, &[0]), [5]);
}

/// The same with a Formal of the caller: f's 1 is not g's Formal 1.
#[test]
fn a_callers_formals_are_not_seen() {
    let first = bind_abs(2, &[], body(assign(0, id(1))));
    let second = bind_abs(3, &[(1, 0)], body(call(2, vec![])));
    let root = blk(bind(1, num(5)), blk(first, blk(second, call(3, vec![num(7)]))));
    assert_eq!(registers_after(root, &[0]), [5]);
}

/// A closure keeps names, and a name for a cell shows the cell's later contents.
#[test]
fn a_closure_sees_later_contents_of_its_cells() {
    let function = bind_abs(2, &[], body(assign(0, id(1))));
    let root = blk(bind_ref(1, num(5)), blk(function, cseq(assign(1, num(8)), call(2, vec![]))));
    assert_eq!(registers_after(root, &[0]), [8]);
}

/// A function's name means inside it what it meant around the Bind.
#[test]
fn a_function_does_not_see_itself() {
    let function = bind_abs(1, &[], body(assign(0, id(1))));
    assert_eq!(registers_after(blk(function, call(1, vec![])), &[0, 4]), [4, 4]);
    // An outer function of the same name is what is called.
    let outer = bind_abs(1, &[], body(assign(0, sum(id(0), num(1)))));
    let inner = bind_abs(1, &[], body(cseq(call(1, vec![]), call(1, vec![]))));
    assert_eq!(registers_after(blk(outer, blk(inner, call(1, vec![]))), &[0]), [2]);
}

/// The last actual's fault is met first.
#[test]
fn actuals_run_last_to_first() {
    let function = || bind_abs(1, &[(2, 0), (3, 0), (4, 0)], body(assign(0, num(1))));
    let zero = || div(num(1), num(0));
    let over = || mul(id(0), id(0));
    // Blk, Bind, Abs, mark, mark, Call, then the last actual's three steps.
    let root = blk(function(), call(1, vec![zero(), num(1), over()]));
    assert_eq!(outcome(root, &[i64::MAX]), (refused(32, 0), 9));
    let root = blk(function(), call(1, vec![over(), num(1), zero()]));
    assert_eq!(outcome(root, &[i64::MAX]), (refused(31, 0), 9));
    let root = blk(function(), call(1, vec![over(), zero(), num(1)]));
    assert_eq!(outcome(root, &[i64::MAX]), (refused(31, 0), 10));
}

#[test]
fn the_first_formal_has_the_first_actual() {
    let function = bind_abs(1, &[(2, 0), (3, 0)], body(assign(0, sub(id(2), id(3)))));
    assert_eq!(registers_after(blk(function, call(1, vec![num(10), num(3)])), &[0]), [7]);
    // Eight of them, each with its own digit.
    let formals: Vec<_> = (0..8).map(|index| (10 + index, 0)).collect();
    let digits = (0..8).fold(num(0), |total, index| sum(mul(total, num(10)), id(10 + index)));
    let function = bind_abs(1, &formals, body(assign(0, digits)));
    let root = blk(function, call(1, (1..=8).map(num).collect()));
    assert_eq!(registers_after(root, &[0]), [12_345_678]);
}

/// Formals hide the names of the closure; the Blk's own names hide the Formals.
#[test]
fn formals_hide_and_are_hidden() {
    let function = bind_abs(1, &[(0, 0)], block(bind(3, id(0)), assign(2, id(3))));
    assert_eq!(registers_after(blk(function, call(1, vec![num(6)])), &[1, 2, 3]), [1, 2, 6]);
    let function = bind_abs(1, &[(3, 0)], block(bind(3, sum(id(3), num(1))), assign(0, id(3))));
    assert_eq!(registers_after(blk(function, call(1, vec![num(6)])), &[0]), [7]);
}

/// An actual that is a location makes the Formal a name of the caller's cell.
#[test]
fn a_location_as_actual_is_an_alias() {
    let function = bind_abs(1, &[(2, 2)], body(assign(2, sum(id(2), num(1)))));
    let root = blk(function, cseq(call(1, vec![deref(0)]), call(1, vec![deref(0)])));
    assert_eq!(registers_after(root, &[5]), [7]);
    // Both Formals may name one cell.
    let function =
        bind_abs(6, &[(2, 2), (3, 2)], body(cseq(assign(2, num(4)), assign(0, sum(id(0), id(3))))));
    assert_eq!(registers_after(blk(function, call(6, vec![deref(1), deref(1)])), &[1, 9]), [5, 4]);
}

/// A Formal of code 4: a cell that holds a location.
#[test]
fn a_formal_of_a_higher_code() {
    let function = bind_abs(
        1,
        &[(2, 4), (3, 1)],
        body(repeat(and(id(3), lt(id(0), num(9))), assign(0, valref(2)))),
    );
    let inner = blk(bind_ref(5, deref(4)), call(1, vec![deref(5), boo(true)]));
    assert_eq!(registers_after(blk(function, blk(bind_ref(4, num(9)), inner)), &[0]), [9]);
}

/// After a call the caller's own cells are there, and its block frees them.
#[test]
fn a_call_keeps_the_callers_location_set() {
    let function = bind_abs(1, &[], block(bind_ref(2, num(6)), assign(2, num(7))));
    let caller = blk(bind_ref(3, num(5)), cseq(call(1, vec![]), assign(0, id(3))));
    let root = blk(function, cseq(caller.clone(), caller));
    assert_eq!(registers_after(root.clone(), &[0]), [5]);
    let routine = read(&image(1, root)).unwrap();
    let mut execution = Execution::start(&routine, &[0], MOST_BUDGET);
    assert_eq!(execution.finish(|_| {}), None);
    assert_eq!(execution.state().store.live(), 1);
    assert_eq!(execution.state().locations.iter().count(), 0);
}

/// The caller's names are back after a call.
#[test]
fn a_call_gives_the_environment_back() {
    let function = bind_abs(1, &[(2, 0)], block(bind(3, num(8)), assign(0, id(3))));
    let caller = cseq(call(1, vec![num(1)]), assign(0, sum(id(0), sum(id(2), id(3)))));
    let root = blk(function, blk(dseq(bind(2, num(100)), bind(3, num(20))), caller));
    assert_eq!(registers_after(root, &[0]), [128]);
}

/// Between the Call's mark and the function's Blk, L is empty: what the caller
/// has made is not the call's to free.
#[test]
fn a_calls_location_set_starts_empty() {
    let function = bind_abs(1, &[], block(bind_ref(2, num(6)), assign(0, num(7))));
    let root = blk(bind_ref(3, num(5)), blk(function, blk(bind_ref(4, num(5)), call(1, vec![]))));
    let routine = read(&image(1, root)).unwrap();
    // Blk, Bind, Ref, Num, Blk, Bind, Abs, and then the function's Blk.
    const FUNCTIONS_BLK: Place = 7;
    let mut seen = 0;
    Execution::start(&routine, &[0], MOST_BUDGET).finish(|at| {
        if let Some(ControlEntry::Node(Node::Blk(node))) = at.state().control.last() {
            if node.place == FUNCTIONS_BLK {
                seen += 1;
                assert_eq!(at.state().locations.iter().count(), 0);
                assert_eq!(at.state().store.live(), 3);
            }
        }
    });
    assert_eq!(seen, 1);
}
