//! The limits of both stacks at a DSeq: four entries on control at its own step,
//! and the kept E below the first declaration's environment while the second runs.
//! Each limit is met at 512 and passed at 513 where an entry less would not.

use crate::towers::*;
use second::build::*;
use second::encode;
use second::engine::MOST_BUDGET;
use second::execution::{room, Execution};
use second::generate::declarations;
use second::reader::read;
use second::refusal;
use second::state::{ControlEntry, Mark, State};
use second::tree::*;

/// A Blk of so many DSeqs, each the first declaration of the one around it.
fn to_the_left(count: Name) -> Command {
    blk(declarations::to_the_left(count), assign(0, id(1 + count)))
}

/// A Blk of so many DSeqs, each the second declaration of the one around it, and as
/// the last Bind's value this one.
fn to_the_right(count: Name, last: fn(Name) -> Expression) -> Command {
    let last = bind(1 + count, last(count));
    blk(declarations::to_the_right(count, last), assign(0, id(1 + count)))
}

/// From a Blk at a start of c the DSeqs come to c + 3 + 3 × count, and the first
/// Bind to one more.
#[test]
fn control_of_first_declarations() {
    for count in 1..=6 {
        let greatest = 508 - 3 * count as usize;
        let inner = || to_the_left(count);
        passes(&tower(100, greatest, inner()));
        assert_eq!(most(100, greatest, inner()).control, 512);
        // The last DSeq comes to exactly 512: it is made, and the Bind is not.
        assert_eq!(stops(&tower(100, greatest + 1, inner()), 36, "Bind").control, 512);
        // One more start, and its four entries are 513; three would be 512.
        assert_eq!(stops(&tower(100, greatest + 2, inner()), 36, "DSeq").control, 510);
        assert_eq!(stops(&tower(100, greatest + 3, inner()), 36, "DSeq").control, 511);
        assert_eq!(stops(&tower(100, greatest + 4, inner()), 36, "DSeq").control, 512);
    }
    // The steps made from the Blk on, until one is withheld.
    let steps = |control| {
        let routine = tower(100, control, to_the_left(1)).routine();
        let routine = read(&encode(&routine)).unwrap();
        let mut execution = Execution::start(&routine, &[0], MOST_BUDGET);
        let mut at_blk = 0;
        execution.finish(|at| {
            if at.state().control.len() == control && top(at.state()) == "Blk" {
                at_blk = at.steps();
            }
        });
        execution.steps() - at_blk
    };
    // Blk and DSeq; the Blk alone.
    assert_eq!((steps(506), steps(507), steps(508)), (2, 1, 1));
}

/// From a start of v the last Bind's value comes to v + 3 + 2 × count, and its
/// second operand to one more.
#[test]
fn values_of_second_declarations() {
    for count in 1..=6 {
        let leaf: fn(Name) -> Expression = |name| id(name);
        let two: fn(Name) -> Expression = |name| sum(num(1), id(name));
        let three: fn(Name) -> Expression = |name| sum(num(1), sum(num(2), id(name)));
        let greatest = 508 - 2 * count as usize;
        // Exactly 512, with the second operand.
        passes(&tower(greatest, 400, to_the_right(count, two)));
        assert_eq!(most(greatest, 400, to_the_right(count, two)).values, 512);
        // A third is the 513th; without a kept E for each DSeq it would not be.
        assert_eq!(stops(&tower(greatest, 400, to_the_right(count, three)), 35, "Id").values, 512);
        // Two entries higher, and the last Bind's own value is.
        assert_eq!(
            stops(&tower(greatest + 2, 400, to_the_right(count, leaf)), 35, "Id").values,
            512
        );
        assert_eq!(
            stops(&tower(greatest + 2, 400, to_the_right(count, two)), 35, "Num").values,
            512
        );
        passes(&tower(greatest, 400, to_the_right(count, leaf)));
    }
}

/// A cell, a location and a function of the second declaration, at 512 and 513.
#[test]
fn values_of_what_a_second_declaration_binds() {
    let first = || bind_ref(1, num(4));
    let body = || block(bind(3, num(0)), assign(0, id(1)));
    let then = || assign(0, num(1));
    let table: Vec<(Declaration, &str)> = vec![
        (bind(2, id(1)), "Id"),
        (bind(2, deref(1)), "DeRef"),
        (bind_ref(2, num(1)), "Num"),
        (bind_ref(2, boo(true)), "Boo"),
        (bind_abs(2, &[], body()), "Abs"),
    ];
    for (second, at) in table {
        let inner = blk(dseq(first(), second), then());
        passes(&tower(506, 400, inner.clone()));
        assert_eq!(stops(&tower(508, 400, inner), 35, at).values, 512);
    }
    let inner = blk(dseq(bind_ref(1, deref(0)), bind(2, valref(1))), then());
    passes(&tower(506, 400, inner.clone()));
    assert_eq!(stops(&tower(508, 400, inner), 35, "ValRef").values, 512);
}

/// The state of a run that has a DSeq's first mark on top, with entries put below V
/// until it is so high.
fn at_a_first_mark(routine: &Routine, values: usize) -> State<'_> {
    let mut execution = Execution::start(routine, &[0], MOST_BUDGET);
    while !matches!(execution.state().control.last(), Some(ControlEntry::Mark(Mark::DSeqFirst))) {
        execution.advance();
    }
    let state = execution.state();
    raised(state.clone(), values, state.control.len())
}

/// The first mark leaves one entry more on V, and 35 is judged on it. No routine is
/// stopped there: the first declaration has had a name and a value where the mark
/// leaves two environments. So the state is made by hand.
#[test]
fn a_first_mark_leaves_one_value_entry_more() {
    let routine = read(&image(1, to_the_left(1))).unwrap();
    let after = |values| after(&at_a_first_mark(&routine, values));
    assert_eq!((after(511).values, room(after(511))), (512, None));
    assert_eq!((after(512).values, room(after(512))), (513, Some(refusal::VALUES)));
}

/// Both limits at one DSeq: the first declaration's Bind has brought control to
/// 512, and the second one's value is the 513th entry of V.
#[test]
fn both_stacks_at_one_sequence() {
    let inner = || blk(dseq(bind(1, num(4)), bind(2, id(1))), assign(0, id(2)));
    passes(&tower(506, 505, inner()));
    assert_eq!(most(506, 505, inner()).control, 512);
    assert_eq!(stops(&tower(508, 505, inner()), 35, "Id").values, 512);
    assert_eq!(stops(&tower(508, 506, inner()), 36, "Bind").control, 512);
    assert_eq!(stops(&tower(508, 507, inner()), 36, "DSeq").control, 510);
    // The first declaration's value, before any E is kept.
    assert_eq!(stops(&tower(510, 505, inner()), 35, "Num").values, 512);
}

/// No step of a DSeq is withheld for two reasons of room, and none at its marks,
/// from any start near the limits.
#[test]
fn one_reason_of_a_sequence_at_a_time() {
    let sequences = [to_the_left(1), to_the_left(3), to_the_right(1, id), to_the_right(3, id)];
    let met = one_reason_at_a_time(&sequences, 496..=510, 494..=512, "mark of DSeq");
    assert!(met.iter().all(|count| *count > 50), "{met:?}");
}
