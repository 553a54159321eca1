//! Ranges of Conds: which commands are carried, from which cells, and what both leave.

use crate::helpers::*;
use second::build::*;
use second::tree::*;

/// A test of which both truths are possible while register 0 is 0..10.
fn open() -> Expression {
    lt(id(0), num(5))
}

const STARTS: [(i64, i64); 3] = [(0, 10), (100, 200), (7, 7)];

fn ends(command: Command) -> Vec<(i64, i64)> {
    ends_of(command, &STARTS).expect("ends")
}

#[test]
fn the_wider_ends_of_both_commands() {
    let set = |number| assign(1, num(number));
    assert_eq!(ends(cond(open(), set(5), set(9)))[1], (5, 9));
    assert_eq!(ends(cond(open(), set(9), set(5)))[1], (5, 9));
    assert_eq!(ends(cond(open(), set(5), set(5)))[1], (5, 5));
    // What one command leaves as it was is as it was before the Cond.
    assert_eq!(ends(cond(open(), set(150), assign(2, num(0)))), [(0, 10), (100, 200), (0, 7)]);
    assert_eq!(ends(cond(open(), assign(2, num(9)), set(3))), [(0, 10), (3, 200), (7, 9)]);
    // One command's range within the other's.
    let within = cond(open(), assign(1, sum(id(0), num(120))), assign(1, id(1)));
    assert_eq!(ends(within)[1], (100, 200));
}

/// The second command does not see what the first has done, nor the first what the second has.
#[test]
fn both_start_from_the_state_before() {
    let more = |by| assign(1, sum(id(1), num(by)));
    assert_eq!(ends(cond(open(), more(1), more(2)))[1], (101, 202));
    let exchanged = cond(open(), assign(1, id(2)), assign(2, id(1)));
    assert_eq!(ends(exchanged), [(0, 10), (7, 200), (7, 200)]);
}

/// A test narrows nothing, neither in a command nor behind the Cond.
#[test]
fn a_test_narrows_nothing() {
    let copied = cond(open(), assign(1, id(0)), assign(1, num(3)));
    assert_eq!(ends(copied)[1], (0, 10));
    let guarded = cond(eq(id(0), num(0)), assign(1, num(0)), assign(1, div(num(100), id(0))));
    assert_eq!(ends_of(guarded, &STARTS), ends_refused(44, 7));
}

/// Where the test can be only one truth, that command alone is carried, and no 44 comes from
/// the other.
#[test]
fn one_command_alone() {
    let faulty = || assign(1, div(num(1), num(0)));
    let set = || assign(1, num(3));
    assert_eq!(ends(cond(boo(true), set(), faulty()))[1], (3, 3));
    assert_eq!(ends(cond(boo(false), faulty(), set()))[1], (3, 3));
    assert_eq!(ends(cond(gt(id(1), id(0)), set(), faulty()))[1], (3, 3));
    assert_eq!(ends(cond(lt(id(1), id(0)), faulty(), set()))[1], (3, 3));
    assert_eq!(ends_of(cond(gt(id(1), id(0)), faulty(), set()), &STARTS), ends_refused(44, 5));
    // A Cond in a command that is not carried is not either.
    let inner = cond(open(), faulty(), faulty());
    assert_eq!(ends(cond(boo(true), set(), inner))[1], (3, 3));
}

/// A test that is one truth by what an earlier Cond has left.
#[test]
fn a_test_by_what_was_left() {
    let first = cond(open(), assign(2, num(20)), assign(2, num(30)));
    let then = |limit| cond(ge(id(2), num(limit)), assign(1, num(1)), assign(1, num(0)));
    assert_eq!(ends(cseq(first.clone(), then(20)))[1], (1, 1));
    assert_eq!(ends(cseq(first.clone(), then(21)))[1], (0, 1));
    assert_eq!(ends(cseq(first, then(31)))[1], (0, 0));
}

fn ge(left: Expression, right: Expression) -> Expression {
    binary(Operator::Ge, left, right)
}

/// A Cond in the commands of another: the widening of the inner one is within its command.
#[test]
fn one_in_another() {
    let set = |number| assign(1, num(number));
    let inner = |one, other| cond(open(), set(one), set(other));
    assert_eq!(ends(cond(open(), inner(4, 8), inner(6, 20)))[1], (4, 20));
    let chain = cond(open(), set(3), cond(open(), set(2), cond(open(), set(1), set(9))));
    assert_eq!(ends(chain)[1], (1, 9));
    // Behind the inner Cond its command goes on from the wider ends.
    let goes_on = cseq(inner(4, 8), assign(1, sum(id(1), num(100))));
    assert_eq!(ends(cond(open(), goes_on, set(50)))[1], (50, 108));
    let second = cseq(inner(4, 8), assign(1, sub(num(0), id(1))));
    assert_eq!(ends(cond(open(), set(50), second))[1], (-8, 50));
}

/// Thirty Conds in each other, first commands and second ones: what each level adds is there.
#[test]
fn many_in_each_other() {
    for first in [true, false] {
        let nested = (0..30).fold(assign(1, num(0)), |inner, level| {
            let more = cseq(inner, assign(1, sum(id(1), num(1))));
            let other = assign(2, num(100 + level));
            if first {
                cond(open(), more, other)
            } else {
                cond(open(), other, more)
            }
        });
        // Register 1 is 0 within all levels or as it started within the innermost, and one more
        // for each level around.
        assert_eq!(ends(nested), [(0, 10), (30, 229), (7, 129)]);
    }
}

/// Conds one after another: the ends are the wider ones each time, not those of one way.
#[test]
fn one_behind_another() {
    let up = || cond(open(), assign(1, sum(id(1), num(1))), assign(1, sub(id(1), num(1))));
    let all = (0..10).map(|_| up()).collect();
    assert_eq!(ends(commands(all))[1], (90, 210));
}

/// Cells of truths: every truth that either command leaves.
#[test]
fn cells_of_truths() {
    const FLAG: Name = 9;
    let told = || cond(id(FLAG), assign(1, num(1)), assign(1, num(0)));
    let with = |first: bool, one: Option<bool>, other: Option<bool>| {
        let set = |truth: Option<bool>| match truth {
            Some(truth) => assign(FLAG, boo(truth)),
            None => assign(2, num(7)),
        };
        let body = cseq(cond(open(), set(one), set(other)), told());
        ends(blk(bind_ref(FLAG, boo(first)), body))[1]
    };
    assert_eq!(with(true, Some(true), Some(false)), (0, 1));
    assert_eq!(with(true, Some(false), Some(true)), (0, 1));
    assert_eq!(with(true, Some(false), Some(false)), (0, 0));
    assert_eq!(with(false, Some(true), Some(true)), (1, 1));
    assert_eq!(with(true, None, Some(false)), (0, 1));
    assert_eq!(with(true, None, Some(true)), (1, 1));
    assert_eq!(with(false, None, None), (0, 0));
    // A truth that may be both is kept as both, and a cell that starts so as well.
    let kept = blk(bind_ref(FLAG, open()), told());
    assert_eq!(ends(kept)[1], (0, 1));
    let plain = blk(bind(FLAG, not(open())), told());
    assert_eq!(ends(plain)[1], (0, 1));
}

/// Cells of a block in a command are gone behind it; those around it are widened.
#[test]
fn blocks_in_commands() {
    let inner = |number| {
        blk(bind_ref(20, num(number)), blk(bind_ref(21, id(20)), assign(1, sum(id(20), id(21)))))
    };
    assert_eq!(ends(cond(open(), inner(4), inner(30)))[1], (8, 60));
    // One command makes cells and the other does not.
    assert_eq!(ends(cond(open(), inner(4), assign(1, num(2))))[1], (2, 8));
    // A cell around the Cond, set in one command, whose own cells come behind it.
    let around = blk(
        bind_ref(20, num(1)),
        cseq(
            cond(open(), blk(bind_ref(21, num(5)), assign(20, id(21))), assign(2, num(1))),
            assign(1, id(20)),
        ),
    );
    assert_eq!(ends(around), [(0, 10), (1, 5), (1, 7)]);
}
