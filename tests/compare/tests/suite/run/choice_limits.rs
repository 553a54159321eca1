//! Runs near the limits of both stacks at a Cond, from both sides. The figures are
//! written down here: with another count of entries for its own step, or with anything
//! left behind its mark, they would be others.

use super::towers::{end, ends};
use second::build::*;
use second::generate::choices::else_if;
use second::generate::tower::HELPER;
use second::tree::Command;

fn set() -> Command {
    assign(0, num(1))
}

/// From 511 entries the Cond's step comes to 512, and so does the Assign's behind its
/// mark: three steps, of which the test is one, and the Assign's. From 512 none is made.
#[test]
fn control_at_the_choices_own_step() {
    for truth in [true, false] {
        let choice = || cond(boo(truth), set(), set());
        assert_eq!(end(100, 510, choice()).0, 0);
        assert_eq!(end(100, 511, choice()).0, 0);
        assert_eq!(end(100, 512, choice()), (36, 0));
        // A test with an operator has two entries more at its own step.
        let compared = || cond(lt(id(0), num(1)), set(), set());
        assert_eq!(end(100, 509, compared()).0, 0);
        assert_eq!(end(100, 510, compared()), (36, 1));
        assert_eq!(end(100, 511, compared()), (36, 1));
        assert_eq!(end(100, 512, compared()), (36, 0));
        // A command with more than an Assign: behind Cond, Boo and mark.
        let longer = || cond(boo(truth), cseq(set(), set()), cseq(set(), set()));
        assert_eq!(end(100, 510, longer()).0, 0);
        assert_eq!(end(100, 511, longer()), (36, 4));
    }
}

/// From 510 entries of V the Cond and a leaf come to 512; the second operand of a
/// comparison is the 513th, behind Cond, the operator and the first operand.
#[test]
fn values_in_the_test() {
    assert_eq!(end(510, 400, cond(boo(true), set(), set())).0, 0);
    let two = || cond(lt(num(1), id(0)), set(), set());
    assert_eq!(end(508, 400, two()).0, 0);
    assert_eq!(end(510, 400, two()), (35, 3));
    let three = || cond(lt(num(1), sum(num(2), id(0))), set(), set());
    assert_eq!(end(508, 400, three()).0, 0);
    assert_eq!(end(510, 400, three()), (35, 4));
    let four = || cond(lt(num(1), sum(num(2), sum(num(3), id(0)))), set(), set());
    assert_eq!(end(506, 400, four()).0, 0);
    assert_eq!(end(508, 400, four()), (35, 7));
}

/// Both stacks at 512 while the test runs, and the mark is made.
#[test]
fn both_stacks_at_one_choice() {
    assert_eq!(end(510, 511, cond(boo(true), set(), set())).0, 0);
    assert_eq!(end(510, 511, cond(boo(false), set(), set())).0, 0);
    assert_eq!(end(510, 512, cond(boo(true), set(), set())), (36, 0));
    let compared = || cond(lt(num(1), id(0)), set(), set());
    assert_eq!(end(508, 509, compared()).0, 0);
    assert_eq!(end(510, 509, compared()), (35, 3));
    assert_eq!(end(510, 510, compared()), (36, 1));
}

/// What a Cond takes has the room that it has in the Cond's place: it is withheld after
/// the steps of its own, and the Cond's and its test's three.
#[test]
fn the_taken_command_has_the_room_of_the_choice() {
    let growing = || {
        vec![
            assign(0, sum(num(1), sum(num(2), num(3)))),
            cseq(set(), set()),
            repeat(lt(id(0), num(1)), set()),
            blk(bind_ref(1, num(4)), assign(0, id(1))),
            call(HELPER, vec![]),
        ]
    };
    let mut withheld = 0;
    for command in growing() {
        for (values, control) in [(100, 511), (100, 509), (508, 400), (510, 400), (510, 511)] {
            let (refused, steps) = end(values, control, command.clone());
            if refused == 0 {
                continue;
            }
            withheld += 1;
            let first = cond(boo(true), command.clone(), set());
            assert_eq!(end(values, control, first), (refused, steps + 3));
            let second = cond(boo(false), set(), command.clone());
            assert_eq!(end(values, control, second), (refused, steps + 3));
        }
    }
    assert!(withheld >= 15, "{withheld}");
}

/// Conds in each other's second or first command are no higher than one.
#[test]
fn nested_choices_are_no_higher_than_one() {
    for count in [1, 2, 5, 9] {
        assert_eq!(end(100, 509, else_if(count)).0, 0);
        assert_eq!(end(100, 510, else_if(count)), (36, 1));
        assert_eq!(end(100, 512, else_if(count)), (36, 0));
        assert_eq!(end(508, 400, else_if(count)).0, 0);
        assert_eq!(end(510, 400, else_if(count)), (35, 3));
        let firsts = || (0..count).fold(set(), |inner, _| cond(boo(true), inner, set()));
        assert_eq!(end(510, 511, firsts()).0, 0);
        assert_eq!(end(100, 512, firsts()), (36, 0));
    }
}

/// Every height near both limits.
#[test]
fn choices_at_every_height_near_512() {
    let inner = [
        cond(boo(true), set(), call(HELPER, vec![])),
        cond(boo(false), set(), call(HELPER, vec![])),
        cond(and(boo(true), lt(id(0), num(1))), blk(bind(1, num(4)), assign(0, id(1))), set()),
        else_if(3),
    ];
    let ended = ends(&inner, 500..=510, 503..=512);
    assert!(ended.iter().all(|count| *count > 20), "{ended:?}");
}
