//! Commands, declarations and blocks: what is stored, what is freed, what a name
//! means, and how many steps it takes.

use crate::helpers::*;
use second::build::*;
use second::engine::{Outcome, MOST_BUDGET};
use second::execution::Execution;
use second::reader::read;
use second::state::ValueEntry;
use second::store::{Location, Value};
use second::tree::Command;

/// The most cells live at once in a run, and the cells live at its end.
fn cells(root: Command, starts: &[i64]) -> (usize, usize) {
    let routine = read(&image(starts.len() as u32, root)).unwrap();
    let mut execution = Execution::start(&routine, starts, MOST_BUDGET);
    let mut most = 0;
    let reason = execution.finish(|at| most = most.max(at.state().store.live()));
    assert_eq!(reason, None);
    (most, execution.state().store.live())
}

/// The locations that come to the top of V, in order and without repetition in
/// a row.
fn locations_on_top(root: Command, starts: &[i64]) -> Vec<u32> {
    let routine = read(&image(starts.len() as u32, root)).unwrap();
    let mut seen = Vec::new();
    Execution::start(&routine, starts, MOST_BUDGET).finish(|at| {
        if let Some(ValueEntry::Value(Value::Location(Location(number)))) = at.state().values.last()
        {
            seen.push(*number);
        }
    });
    seen
}

#[test]
fn steps_of_each_command() {
    // Assign, its value, its mark.
    assert_eq!(outcome(assign(0, num(1)), &[0]), (Outcome::None, 3));
    // CSeq is one step more than its commands.
    assert_eq!(outcome(cseq(assign(0, num(1)), assign(0, num(2))), &[0]), (Outcome::None, 7));
    // A loop not entered: Loop, test, mark.
    assert_eq!(outcome(repeat(boo(false), assign(0, num(1))), &[0]), (Outcome::None, 3));
    // Blk, Bind, Num, Bind's mark, first mark, command, second mark.
    assert_eq!(outcome(blk(bind(1, num(2)), assign(0, num(1))), &[0]), (Outcome::None, 9));
    // DSeq is three steps more than its declarations.
    let two = dseq(bind(1, num(2)), bind(2, num(3)));
    assert_eq!(outcome(blk(two, assign(0, num(1))), &[0]), (Outcome::None, 15));
    // A function that is not called: Abs is one step.
    let function = bind_abs(1, &[], block(bind(2, num(0)), assign(0, num(0))));
    assert_eq!(outcome(blk(function, assign(0, num(1))), &[0]), (Outcome::None, 9));
}

#[test]
fn a_sequence_runs_its_first_command_first() {
    assert_eq!(registers_after(cseq(assign(0, num(1)), assign(0, num(2))), &[0]), [2]);
    let root = cseq(assign(0, sum(id(0), num(1))), assign(0, mul(id(0), num(10))));
    assert_eq!(registers_after(root, &[1]), [20]);
}

#[test]
fn a_loop_tests_before_each_round() {
    // One round: Loop, test, mark, command (5), Loop, test, mark.
    let root = repeat(lt(id(0), num(1)), assign(0, sum(id(0), num(1))));
    assert_eq!(registers_after(root.clone(), &[0]), [1]);
    assert_eq!(outcome(root.clone(), &[0]).1, 2 * 6 + 6);
    assert_eq!(outcome(root, &[1]).1, 6);
}

/// Leaving an inner block frees its own cell and keeps the outer one's.
#[test]
fn leaving_a_block_frees_its_own_cells_and_no_others() {
    let inner = blk(bind_ref(2, num(6)), assign(2, num(7)));
    let root = blk(bind_ref(1, num(5)), cseq(inner, assign(0, id(1))));
    assert_eq!(registers_after(root.clone(), &[0]), [5]);
    assert_eq!(cells(root, &[0]), (3, 1));
}

/// The cell of a block is free again when the next block makes one: its
/// location is the number of live cells.
#[test]
fn locations_are_the_number_of_live_cells_and_are_used_again() {
    let block = || blk(bind_ref(1, num(5)), assign(0, id(1)));
    assert_eq!(locations_on_top(cseq(block(), block()), &[0]), [1, 1]);
    let nested = blk(bind_ref(1, num(5)), cseq(block(), block()));
    assert_eq!(locations_on_top(nested, &[0, 0]), [2, 3, 3]);
    let two = dseq(bind_ref(1, num(5)), bind_ref(2, num(6)));
    assert_eq!(locations_on_top(blk(two, assign(0, id(1))), &[0]), [1, 2]);
    let none = blk(bind_ref(1, num(5)), assign(1, num(6)));
    assert_eq!(locations_on_top(none, &[]), [0]);
}

/// Three blocks deep, with two cells each: all are freed, each by its own block.
#[test]
fn nested_blocks_free_level_by_level() {
    let two = || dseq(bind_ref(1, num(5)), bind_ref(2, num(6)));
    let root = blk(two(), cseq(blk(two(), blk(two(), assign(0, id(1)))), assign(0, id(2))));
    assert_eq!(cells(root.clone(), &[0]), (7, 1));
    assert_eq!(registers_after(root, &[0]), [6]);
}

#[test]
fn names_come_back_when_a_block_is_left() {
    let inner = blk(bind(1, num(8)), assign(0, id(1)));
    let root = blk(bind(1, num(3)), cseq(inner, assign(0, sum(id(0), id(1)))));
    assert_eq!(registers_after(root, &[0]), [11]);
    // A register hidden by a cell of the same name is kept.
    let root = cseq(blk(bind_ref(0, num(8)), assign(0, num(9))), assign(1, id(0)));
    assert_eq!(registers_after(root, &[4, 0]), [4, 4]);
}

/// D1 runs first: its fault is met and the second one's is not.
#[test]
fn the_first_declaration_runs_first() {
    let zero = bind_ref(1, div(num(1), num(0)));
    let over = bind_ref(2, mul(id(0), id(0)));
    let then = || assign(0, num(1));
    assert_eq!(
        outcome(blk(dseq(zero.clone(), over.clone()), then()), &[i64::MAX]).0,
        refused(31, 0)
    );
    assert_eq!(outcome(blk(dseq(over, zero), then()), &[i64::MAX]).0, refused(32, 0));
}

#[test]
fn both_sides_of_a_join_are_bound() {
    let all = declarations(vec![
        bind(1, num(1)),
        bind_ref(2, num(20)),
        bind(3, num(300)),
        bind(4, num(4000)),
    ]);
    let total = sum(sum(id(1), id(2)), sum(id(3), id(4)));
    assert_eq!(registers_after(blk(all, assign(0, total)), &[0]), [4321]);
}

#[test]
fn a_plain_binding_is_a_copy() {
    let root = blk(bind(1, id(0)), cseq(assign(0, num(9)), assign(1, id(1))));
    assert_eq!(checked_tree(1, root), answer_refused(13, 6));
    let root = blk(bind(2, id(0)), cseq(assign(0, num(9)), assign(1, id(2))));
    assert_eq!(registers_after(root, &[5, 0]), [9, 5]);
}

/// A Ref copies the value into a new cell.
#[test]
fn a_new_cell_is_not_the_old_one() {
    let root = blk(
        bind_ref(2, id(0)),
        commands(vec![assign(0, num(9)), assign(1, id(2)), assign(2, num(7))]),
    );
    assert_eq!(registers_after(root, &[5, 0]), [9, 5]);
}

/// A name bound to a location by DeRef is a cell for Id and for Assign.
#[test]
fn a_name_bound_by_deref_is_the_same_cell() {
    let root =
        blk(bind(1, deref(0)), commands(vec![assign(1, num(7)), assign(0, sum(id(1), id(0)))]));
    assert_eq!(registers_after(root.clone(), &[5]), [14]);
    // It is one binding and no cell.
    assert_eq!(cells(root, &[5]), (1, 1));
}

/// ValRef goes through two cells and sees what was stored last.
#[test]
fn valref_reads_through_two_cells() {
    let root = blk(bind_ref(2, deref(0)), commands(vec![assign(0, num(7)), assign(1, valref(2))]));
    assert_eq!(registers_after(root, &[5, 0]), [7, 7]);
    // Through three levels: a cell of a location of a location.
    let inner = blk(bind_ref(4, valref(3)), assign(1, valref(4)));
    let root = blk(bind_ref(2, deref(0)), blk(bind_ref(3, deref(2)), inner));
    // Name 3 has code 6; ValRef of it has code 2; name 4 holds register 0's location.
    assert_eq!(registers_after(root, &[5, 0]), [5, 5]);
}

/// Id of a cell that holds a location gives that location: an alias again.
#[test]
fn id_of_a_cell_of_locations_gives_a_location() {
    let root =
        blk(bind_ref(2, deref(0)), blk(bind(3, id(2)), cseq(assign(3, num(6)), assign(1, id(3)))));
    assert_eq!(registers_after(root, &[5, 0]), [6, 6]);
}

#[test]
fn cells_of_truths() {
    let root = blk(
        bind_ref(1, boo(true)),
        repeat(id(1), cseq(assign(0, sum(id(0), num(1))), assign(1, lt(id(0), num(3))))),
    );
    assert_eq!(registers_after(root, &[0]), [3]);
}

/// The cell of a block entered many times is made and freed each time.
#[test]
fn a_block_in_a_loop_frees_each_time() {
    let block = blk(bind_ref(1, num(1)), assign(0, sub(id(0), id(1))));
    let root = repeat(gt(id(0), num(0)), block);
    assert_eq!(registers_after(root.clone(), &[600]), [0]);
    assert_eq!(cells(root, &[600]), (2, 1));
}
