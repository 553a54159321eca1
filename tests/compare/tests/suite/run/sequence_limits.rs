//! Runs near the limits of both stacks at a DSeq, from both sides. The figures are
//! written down here: with three entries of control for its own step, or with no E
//! kept on the value stack, they would be others.

use super::towers::{end, ends};
use second::build::*;
use second::generate::declarations;
use second::tree::{Command, Expression, Name};

fn sequence() -> Command {
    blk(dseq(bind(1, num(4)), bind(2, id(1))), assign(0, id(2)))
}

/// From a Blk at 505 the DSeq comes to 511 entries and the first Bind to 512. At
/// 506 the DSeq comes to 512 and the Bind is withheld, after Blk and DSeq. At 507
/// the DSeq would come to 513, with three entries to 512, and is withheld after the
/// Blk; and so on up.
#[test]
fn control_at_the_sequences_own_step() {
    assert_eq!(end(100, 504, sequence()).0, 0);
    assert_eq!(end(100, 505, sequence()).0, 0);
    assert_eq!(end(100, 506, sequence()), (36, 2));
    assert_eq!(end(100, 507, sequence()), (36, 1));
    assert_eq!(end(100, 508, sequence()), (36, 1));
    assert_eq!(end(100, 509, sequence()), (36, 1));
}

/// From a start of 506 the second declaration's value is the 511th entry of V. From
/// 508 it is the 513th, with no E kept the 512th: Blk, DSeq, Bind, Num, mark, first
/// mark and Bind are made. From 510 it is the first declaration's value.
#[test]
fn values_in_the_second_declaration() {
    assert_eq!(end(506, 400, sequence()).0, 0);
    assert_eq!(end(508, 400, sequence()), (35, 7));
    assert_eq!(end(510, 400, sequence()), (35, 3));
    // Two operands: exactly 512, and three are 513.
    let bound = |value| blk(dseq(bind(1, num(4)), bind(2, value)), assign(0, id(2)));
    assert_eq!(end(506, 400, bound(sum(num(1), id(1)))).0, 0);
    assert_eq!(end(506, 400, bound(sum(num(1), sum(num(2), id(1))))), (35, 11));
    assert_eq!(end(504, 400, bound(sum(num(1), sum(num(2), id(1))))).0, 0);
}

/// Both limits at one DSeq: control is at 512 in the first declaration, V passes it
/// in the second.
#[test]
fn both_stacks_at_one_sequence() {
    assert_eq!(end(506, 505, sequence()).0, 0);
    assert_eq!(end(508, 505, sequence()), (35, 7));
    assert_eq!(end(508, 506, sequence()), (36, 2));
    assert_eq!(end(508, 507, sequence()), (36, 1));
    assert_eq!(end(510, 505, sequence()), (35, 3));
    assert_eq!(end(510, 506, sequence()), (36, 2));
}

/// A Blk of so many DSeqs below one another's first declaration.
fn to_the_left(count: Name) -> Command {
    blk(declarations::to_the_left(count), assign(0, id(1 + count)))
}

/// A Blk of so many below one another's second declaration, the last value being
/// this one.
fn to_the_right(count: Name, last: Expression) -> Command {
    let last = bind(1 + count, last);
    blk(declarations::to_the_right(count, last), assign(0, id(1 + count)))
}

/// Three entries of control more for each DSeq, and the Bind's own.
#[test]
fn control_of_nested_sequences() {
    for count in 1..=8 {
        let greatest = 508 - 3 * count as usize;
        let steps = u64::from(count);
        assert_eq!(end(100, greatest, to_the_left(count)).0, 0);
        // Blk and all DSeqs; all but the last one.
        assert_eq!(end(100, greatest + 1, to_the_left(count)), (36, 1 + steps));
        for over in 2..=4 {
            assert_eq!(end(100, greatest + over, to_the_left(count)), (36, steps));
        }
    }
}

/// Two entries of V more for each DSeq, and the last Bind's name and value.
#[test]
fn values_of_nested_sequences() {
    for count in 1..=8 {
        let greatest = 508 - 2 * count as usize;
        let last = || id(count);
        assert_eq!(end(greatest, 400, to_the_right(count, last())).0, 0);
        assert_eq!(end(greatest, 400, to_the_right(count, sum(num(1), last()))).0, 0);
        // Blk; a DSeq, a Bind of a leaf and the first mark for each; Bind.
        let made = 1 + 5 * u64::from(count) + 1;
        assert_eq!(end(greatest + 2, 400, to_the_right(count, last())), (35, made));
        // Two Sums and their Nums more.
        let three = sum(num(1), sum(num(2), last()));
        assert_eq!(end(greatest, 400, to_the_right(count, three)), (35, made + 4));
    }
}

/// Every height near both limits, with the DSeqs in every shape.
#[test]
fn sequences_at_every_height_near_512() {
    let shapes = [to_the_left(2), to_the_left(4), to_the_right(2, id(2)), to_the_right(4, id(4))];
    let ended = ends(&shapes, 496..=510, 494..=512);
    assert!(ended.iter().all(|count| *count > 50), "{ended:?}");
}
