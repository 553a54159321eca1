//! Declarations one after another, in the run: the second one of a DSeq sees what
//! the first one declares; what that costs, and that nothing of it is left behind.

use crate::helpers::*;
use second::build::*;
use second::engine::{Outcome, MOST_BUDGET};
use second::execution::Execution;
use second::node::Node;
use second::reader::read;
use second::state::{ControlEntry, Environment, Heights, Mark, ValueEntry};
use second::tree::*;

/// A function's Blk that runs one command.
pub fn body(command: Command) -> Blk {
    block(bind(59, num(0)), command)
}

/// Three declarations, of which the later ones see the earlier ones, in both
/// shapes: DSeq(DSeq(a, b), c) and DSeq(a, DSeq(b, c)).
pub fn both_shapes(a: Declaration, b: Declaration, c: Declaration) -> [Declaration; 2] {
    [dseq(dseq(a.clone(), b.clone()), c.clone()), dseq(a, dseq(b, c))]
}

#[test]
fn the_second_sees_a_plain_value_of_the_first() {
    let both = dseq(bind(1, num(5)), bind(2, sum(id(1), num(1))));
    assert_eq!(registers_after(blk(both, assign(0, id(2))), &[0]), [6]);
    let truth = dseq(bind(1, boo(true)), bind_ref(2, not(id(1))));
    let root = blk(truth, repeat(not(id(2)), cseq(assign(0, num(7)), assign(2, boo(true)))));
    assert_eq!(registers_after(root, &[0]), [7]);
}

/// A lane's start, and its end counted from it.
#[test]
fn the_second_sees_the_contents_of_a_cell_of_the_first() {
    let both = dseq(bind_ref(1, id(0)), bind_ref(2, sum(id(1), num(30))));
    let root = blk(both, cseq(assign(1, num(9)), assign(0, id(2))));
    // What is set later does not move the end.
    assert_eq!(registers_after(root, &[100]), [130]);
}

#[test]
fn the_second_sees_a_location_of_the_first() {
    // The same cell by another name.
    let both = dseq(bind_ref(1, num(5)), bind(2, deref(1)));
    let root = blk(both, cseq(assign(2, num(9)), assign(0, id(1))));
    assert_eq!(registers_after(root, &[0]), [9]);
    // A cell that holds its location.
    let both = dseq(bind_ref(1, num(5)), bind_ref(2, deref(1)));
    let root = blk(both, cseq(assign(1, num(7)), assign(0, valref(2))));
    assert_eq!(registers_after(root, &[0]), [7]);
    // What a cell of the first shows: the register.
    let both = dseq(bind_ref(1, deref(0)), bind(2, valref(1)));
    let root = blk(both, cseq(assign(0, num(8)), assign(0, sum(id(0), id(2)))));
    assert_eq!(registers_after(root, &[5]), [13]);
}

/// The closure is of the environment that the first one's names are added to.
#[test]
fn a_function_of_the_second_has_the_firsts_names() {
    let read = || bind_abs(2, &[], body(assign(0, id(1))));
    let both = dseq(bind(1, num(5)), read());
    assert_eq!(registers_after(blk(both.clone(), call(2, vec![])), &[0]), [5]);
    // Whatever the caller means by the name.
    assert_eq!(registers_after(blk(both, blk(bind(1, num(7)), call(2, vec![]))), &[0]), [5]);
    // It sets a cell of the first.
    let set = bind_abs(2, &[(3, 0)], body(assign(1, sum(id(1), id(3)))));
    let calls = commands(vec![call(2, vec![num(3)]), call(2, vec![num(4)]), assign(0, id(1))]);
    assert_eq!(registers_after(blk(dseq(bind_ref(1, num(5)), set), calls), &[0]), [12]);
    // A Formal hides a name of the first.
    let formal = bind_abs(2, &[(1, 0)], body(assign(0, id(1))));
    let root = blk(dseq(bind(1, num(5)), formal), call(2, vec![num(6)]));
    assert_eq!(registers_after(root, &[0]), [6]);
}

#[test]
fn a_function_of_the_second_calls_one_of_the_first() {
    let add = bind_abs(1, &[(3, 0)], body(assign(0, sum(id(0), id(3)))));
    let twice = bind_abs(2, &[(3, 0)], body(cseq(call(1, vec![id(3)]), call(1, vec![num(1)]))));
    let root = blk(dseq(add.clone(), twice.clone()), call(2, vec![num(10)]));
    assert_eq!(registers_after(root, &[0]), [11]);
    // A third that calls both, in either shape.
    let all = bind_abs(4, &[], body(cseq(call(2, vec![num(100)]), call(1, vec![num(5)]))));
    for declaration in both_shapes(add, twice, all) {
        assert_eq!(registers_after(blk(declaration, call(4, vec![])), &[0]), [106]);
    }
}

/// Register 1 is 3 outside; in the second it is what the first binds.
#[test]
fn a_name_of_the_first_hides_an_outer_one_in_the_second() {
    let both = dseq(bind(1, num(5)), bind(2, id(1)));
    assert_eq!(registers_after(blk(both, assign(0, id(2))), &[0, 3]), [5, 3]);
    let both = dseq(bind(1, num(5)), bind_abs(2, &[], body(assign(0, id(1)))));
    assert_eq!(registers_after(blk(both, call(2, vec![])), &[0, 3]), [5, 3]);
    // In the first it is still the register.
    let both = dseq(bind(1, sum(id(1), num(10))), bind(2, id(1)));
    assert_eq!(registers_after(blk(both, assign(0, id(2))), &[0, 3]), [13, 3]);
    // And so it is where the second binds it.
    let both = dseq(bind(2, id(1)), bind(1, num(5)));
    let root = blk(both, assign(0, sum(mul(id(2), num(10)), id(1))));
    assert_eq!(registers_after(root, &[0, 3]), [35, 3]);
    // A block's name, a Formal.
    let both = || dseq(bind(1, num(5)), bind(2, id(1)));
    let root = blk(bind(1, num(3)), blk(both(), assign(0, id(2))));
    assert_eq!(registers_after(root, &[0]), [5]);
    let function = bind_abs(4, &[(1, 0)], block(both(), assign(0, id(2))));
    assert_eq!(registers_after(blk(function, call(4, vec![num(3)])), &[0]), [5]);
}

#[test]
fn nested_each_sees_all_before_it() {
    let a = bind(1, num(7));
    let b = bind_ref(2, sum(mul(id(1), num(10)), num(3)));
    let c = bind(3, sub(mul(id(2), num(10)), id(1)));
    for declaration in both_shapes(a, b, c) {
        // 7, 73, 723.
        let root = blk(declaration, assign(0, sum(id(3), sum(id(2), id(1)))));
        assert_eq!(registers_after(root, &[0]), [803]);
    }
    // Sixteen in a row, each one more than twice the one before, in every shape.
    let row: Vec<_> = (1..=16)
        .map(|name| match name {
            1 => bind(1, num(1)),
            _ if name % 2 == 0 => bind(name, sum(mul(id(name - 1), num(2)), num(1))),
            _ => bind_ref(name, sum(mul(num(2), id(name - 1)), num(1))),
        })
        .collect();
    let left = row.iter().cloned().reduce(dseq).unwrap();
    let right = row.iter().cloned().rev().reduce(|later, one| dseq(one, later)).unwrap();
    for declaration in [left, right, declarations(row)] {
        let root = blk(declaration, assign(0, id(16)));
        assert_eq!(registers_after(root, &[0]), [65_535]);
    }
}

/// What an outer DSeq's first declares is hidden by what an inner one's first does,
/// in the inner second alone. A name on both sides is 12, so the inner one is a
/// function's.
#[test]
fn an_inner_sequence_hides_and_gives_back() {
    let inner = dseq(bind(1, num(20)), bind(3, id(1)));
    let function = bind_abs(2, &[], block(inner, assign(0, sum(mul(id(0), num(100)), id(3)))));
    let after = bind_abs(4, &[], body(assign(0, sum(mul(id(0), num(100)), id(1)))));
    for declaration in both_shapes(bind(1, num(5)), function, after) {
        let root =
            blk(declaration, commands(vec![call(4, vec![]), call(2, vec![]), call(4, vec![])]));
        assert_eq!(registers_after(root, &[0]), [52_005]);
    }
}

/// The environment with the first one's names is the second's alone: the register
/// is back behind the block, round after round.
#[test]
fn nothing_is_left_behind() {
    for declaration in both_shapes(bind(1, num(5)), bind(2, id(1)), bind(3, sum(id(1), id(2)))) {
        let inside = assign(0, sum(id(0), id(3)));
        let behind = assign(1, sub(id(1), num(1)));
        let root = repeat(gt(id(1), num(0)), cseq(blk(declaration, inside), behind));
        assert_eq!(registers_after(root, &[0, 200]), [2_000, 0]);
    }
    // Nor is a cell, a binding, or an entry of V.
    let both = dseq(bind_ref(1, num(5)), bind_ref(2, deref(1)));
    let routine = read(&image(2, blk(both, assign(0, valref(2))))).unwrap();
    let mut execution = Execution::start(&routine, &[0, 3], MOST_BUDGET);
    assert_eq!(execution.finish(|_| {}), None);
    let heights = execution.state().heights();
    assert_eq!((heights.cells, heights.bindings, heights.values), (2, 2, 0));
}

fn names(environment: &Environment) -> Vec<Name> {
    environment.iter().map(|(name, _)| *name).collect()
}

/// Each state around the two marks: what is on V, and what E is.
#[test]
fn what_the_marks_leave() {
    let both = dseq(bind(1, num(5)), bind(2, id(1)));
    let routine = read(&image(1, blk(both, assign(0, id(2))))).unwrap();
    let mut execution = Execution::start(&routine, &[0], MOST_BUDGET);
    let mut outside = None;
    let mut seen = Vec::new();
    while execution.state().control.last().is_some() {
        let mark = match execution.state().control.last() {
            Some(ControlEntry::Node(Node::DSeq(_))) => {
                outside = Some(execution.state().environment.clone());
                assert_eq!(execution.state().control.len(), 4);
                execution.advance();
                // Four entries for one.
                assert_eq!(execution.state().control.len(), 7);
                continue;
            }
            Some(ControlEntry::Mark(mark)) => *mark,
            _ => {
                execution.advance();
                continue;
            }
        };
        execution.advance();
        let state = execution.state();
        let outside = outside.as_ref();
        match (mark, state.values.as_slice()) {
            (
                Mark::DSeqFirst,
                [ValueEntry::Locations(_), ValueEntry::Environment(kept), ValueEntry::Environment(first)],
            ) => {
                assert!(kept.same(outside.unwrap()));
                assert_eq!(names(first), [1]);
                assert_eq!(names(&state.environment), [1, 0]);
                seen.push("first");
            }
            (Mark::DSeqSecond, [ValueEntry::Locations(_), ValueEntry::Environment(joined)]) => {
                assert_eq!(names(joined), [2, 1]);
                assert!(state.environment.same(outside.unwrap()));
                seen.push("second");
            }
            (Mark::DSeqFirst | Mark::DSeqSecond, values) => panic!("{mark:?} leaves {values:?}"),
            _ => {}
        }
    }
    assert_eq!(seen, ["first", "second"]);
}

/// Three steps and the declarations: Blk, DSeq, Bind, Num, mark, first mark, Bind,
/// Id, mark, second mark, the Blk's first mark, Assign, Id, mark, the Blk's second.
#[test]
fn a_sequence_is_three_steps_and_its_declarations() {
    let then = || assign(0, num(1));
    let steps = |declaration| {
        let (outcome, steps) = outcome(blk(declaration, then()), &[0]);
        assert_eq!(outcome, Outcome::None);
        steps
    };
    // Three of each for Blk, its command, and a Bind of a leaf.
    assert_eq!(steps(bind(1, num(5))), 3 + 3 + 3);
    assert_eq!(steps(dseq(bind(1, num(5)), bind(2, id(1)))), 3 + 3 + 3 + 3 + 3);
    let leaf = |name| bind(name, num(5));
    for declaration in both_shapes(leaf(1), leaf(2), leaf(3)) {
        assert_eq!(steps(declaration), 3 + 3 + 2 * 3 + 3 * 3);
    }
    // In each round of a loop, in each call.
    let both = || dseq(bind(2, num(1)), bind(3, id(2)));
    let down = || assign(1, sub(id(1), id(3)));
    let root = repeat(gt(id(1), num(0)), blk(both(), down()));
    // Loop, test (4), mark; Blk (3), DSeq (3), two Binds (6), Assign of a Sub (6).
    assert_eq!(outcome(root, &[0, 10]), (Outcome::None, 11 * 6 + 10 * (3 + 3 + 6 + 6)));
    let root = blk(bind_abs(4, &[], block(both(), down())), cseq(call(4, vec![]), call(4, vec![])));
    // A Call is 2 steps and the one behind the function's Blk.
    assert_eq!(outcome(root, &[0, 10]), (Outcome::None, 3 + 3 + 1 + 2 * (3 + 18)));
}

/// Every budget cuts the run off at its own step; the registers change at the
/// Assigns' marks alone.
#[test]
fn every_budget() {
    let both = dseq(bind_ref(1, id(0)), bind_ref(2, sum(id(1), num(2))));
    let root = cseq(assign(0, num(8)), blk(both, assign(0, id(2))));
    let image = image(1, root);
    // CSeq, Assign (3); Blk, DSeq, Bind of a Ref (5), mark, the same of a Sum (8),
    // mark, mark, Assign (3), mark.
    let (first, last, whole) = (4, 4 + 21, 4 + 22);
    for budget in 0..=30 {
        let expected = match budget {
            budget if budget < first => (refused(30, 0), budget, vec![100]),
            budget if budget < last => (refused(30, 0), budget, vec![8]),
            budget if budget < whole => (refused(30, 0), budget, vec![10]),
            _ => (Outcome::None, whole, vec![10]),
        };
        let (reply, registers) = run_at(&image, &[100], budget);
        assert_eq!((reply.outcome, reply.steps, registers), expected, "budget {budget}");
    }
}

/// What the run meets in the second, with the first one's cells and names there.
#[test]
fn faults_of_the_run_in_the_second() {
    let both = dseq(bind_ref(1, num(0)), bind(2, div(num(1), id(1))));
    // Blk, DSeq, Bind (5), mark, Bind, Div, Num, Id.
    let (reply, registers) = run_tree(blk(both, assign(0, num(1))), &[7]);
    assert_eq!((reply, registers), (withheld(31, 12, Heights::new(2, 2, 6, 9)), vec![7]));
    let both = dseq(bind(1, id(0)), bind(2, mul(id(1), id(1))));
    let (reply, registers) = run_tree(blk(both, assign(0, num(1))), &[i64::MAX]);
    assert_eq!((reply, registers), (withheld(32, 10, Heights::new(1, 2, 6, 8)), vec![i64::MAX]));
}
