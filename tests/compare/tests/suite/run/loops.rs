//! Loops: rounds within rounds, blocks and calls in them, and runs as long as the
//! greatest budget.

use crate::helpers::*;
use second::build::*;
use second::engine::{Outcome, MOST_BUDGET};
use second::generate::random::Random;
use second::generate::Case;
use second::tree::{Command, Name};

/// As many rounds of a command as the name's cell holds, which counts down to 0.
fn rounds(counter: Name, command: Command) -> Command {
    repeat(gt(id(counter), num(0)), cseq(command, assign(counter, sub(id(counter), num(1)))))
}

#[test]
fn rounds_within_rounds() {
    let add = assign(0, sum(id(0), num(1)));
    let inner = blk(bind_ref(5, num(3)), rounds(5, add));
    let middle = blk(bind_ref(4, num(4)), rounds(4, inner));
    assert_eq!(registers_after(rounds(1, middle.clone()), &[0, 2]), [24, 0]);
    assert_eq!(registers_after(rounds(1, middle), &[0, 50]), [600, 0]);
}

/// The test is made before each round, with what the round before stored.
#[test]
fn tests_of_every_sort() {
    let down = || assign(0, sub(id(0), num(1)));
    assert_eq!(registers_after(repeat(boo(false), down()), &[5]), [5]);
    assert_eq!(registers_after(repeat(not(eq(id(0), num(2))), down()), &[5]), [2]);
    let both = and(gt(id(0), num(2)), not(lt(id(0), num(0))));
    assert_eq!(registers_after(repeat(both, down()), &[5]), [2]);
    let either = or(gt(id(0), num(2)), boo(false));
    assert_eq!(registers_after(repeat(either, down()), &[5]), [2]);
    // A fault in the test of the third round.
    let faulty = repeat(gt(div(num(6), sub(id(0), num(3))), num(0)), down());
    let ran = agreed_tree_run(faulty, &[5]);
    assert_eq!((ran.refused(), ran.registers), (31, vec![3]));
}

/// A loop as the command of a loop, left and entered again without a block.
#[test]
fn a_loop_is_entered_again() {
    let inner = repeat(lt(id(1), num(3)), assign(1, sum(id(1), num(1))));
    let outer = commands(vec![inner, assign(0, sum(id(0), id(1))), assign(1, num(0))]);
    let root = repeat(lt(id(0), num(9)), outer);
    assert_eq!(registers_after(root, &[0, 1]), [9, 0]);
}

#[test]
fn a_call_in_a_loop_in_a_function_in_a_loop() {
    let add =
        bind_abs(10, &[(20, 2), (21, 0)], block(bind(5, id(21)), assign(20, sum(id(20), id(5)))));
    let inner = rounds(6, call(10, vec![deref(0), id(22)]));
    let outer = bind_abs(11, &[(22, 0)], block(bind_ref(6, id(22)), inner));
    let root = blk(add, blk(outer, rounds(1, call(11, vec![id(1)]))));
    // The squares of 5, 4, 3, 2, 1.
    assert_eq!(registers_after(root, &[0, 5]), [55, 0]);
}

/// Endless ones: a block, a call, a loop, a Cond in each round. No stack, cell or binding
/// is used up, so the budget is.
#[test]
fn endless_rounds_use_the_budget_alone() {
    let add = || assign(0, sum(id(0), num(1)));
    let function = bind_abs(10, &[(20, 0), (21, 0)], block(bind_ref(5, id(20)), add()));
    let twice = commands(vec![call(10, vec![num(1), id(0)]), call(10, vec![id(0), num(2)])]);
    let nested = repeat(boo(true), blk(bind_ref(4, num(2)), rounds(4, add())));
    let clear = || blk(bind_ref(4, num(0)), assign(0, id(4)));
    let either = cond(lt(id(0), num(3)), add(), cond(eq(id(0), num(3)), add(), clear()));
    let endless = [
        repeat(boo(true), add()),
        repeat(boo(true), blk(bind_ref(4, num(1)), blk(bind_ref(5, deref(4)), add()))),
        blk(function, repeat(boo(true), twice)),
        repeat(boo(true), blk(bind(4, num(1)), nested)),
        repeat(boo(true), either),
    ];
    let random = &mut Random::new(1);
    for root in endless {
        let mut case = with_starts(image(1, root), &[0]);
        let any: Vec<u64> = (0..40).map(|_| random.below(40_000) as u64).collect();
        for budget in any.into_iter().chain([999_999, MOST_BUDGET]) {
            case.budget = budget;
            let ran = agreed_run(&case, random);
            assert_eq!((ran.refused(), ran.reply.steps), (30, budget));
        }
    }
}

/// The paper's loop with z 0 and y rounds, then so many Assigns: 21 steps a round,
/// 8 for the last test, 4 an Assign with its CSeq.
fn long(assigns: usize, y: i64) -> Case {
    let root = (0..assigns).fold(factorial(), |first, _| cseq(first, assign(0, num(5))));
    with_starts(image(2, root), &[0, y])
}

#[test]
fn a_run_of_1000000_steps_ends_and_one_of_more_does_not() {
    let random = &mut Random::new(2);
    let ran = agreed_run(&long(14, 47_616), random);
    assert_eq!((ran.reply.outcome, ran.reply.steps), (Outcome::None, 1_000_000));
    assert_eq!(ran.registers, [5, 0]);
    let ran = agreed_run(&Case { budget: 999_999, ..long(14, 47_616) }, random);
    assert_eq!((ran.refused(), ran.reply.steps), (30, 999_999));
    let ran = agreed_run(&long(15, 47_616), random);
    assert_eq!((ran.refused(), ran.reply.steps), (30, 1_000_000));
    assert_eq!(ran.registers, [5, 0]);
    let ran = agreed_run(&long(14, 47_617), random);
    assert_eq!((ran.refused(), ran.registers), (30, vec![5, 0]));
}
