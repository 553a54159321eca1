//! The budget: 30, what it beats, and the empty control stack.

use crate::helpers::*;
use second::build::*;
use second::engine::{Outcome, Reply, MOST_BUDGET};
use second::execution::{Advance, Execution};
use second::reader::read;
use second::state::Heights;

#[test]
fn a_run_that_just_fits_ends_normally() {
    let image = image(1, assign(0, num(7)));
    let most = Heights::new(1, 1, 2, 2);
    assert_eq!(run_at(&image, &[0], 3), (ended(3, most), vec![7]));
    assert_eq!(run_at(&image, &[0], 4), (ended(3, most), vec![7]));
    // The withheld third step would have stored.
    assert_eq!(run_at(&image, &[0], 2), (withheld(30, 2, most), vec![0]));
    assert_eq!(run_at(&image, &[0], 1), (withheld(30, 1, Heights::new(1, 1, 1, 2)), vec![0]));
    assert_eq!(run_at(&image, &[0], 0), (withheld(30, 0, Heights::new(1, 1, 0, 1)), vec![0]));
}

/// 30 is judged before the rule: it beats 31 and 32.
#[test]
fn the_budget_comes_before_arithmetic() {
    let (zero, marks) = (image(0, div(num(1), num(0))), Heights::new(0, 0, 2, 3));
    assert_eq!(run_at(&zero, &[], 3).0, withheld(30, 3, marks));
    assert_eq!(run_at(&zero, &[], 4).0, withheld(31, 3, marks));
    let (over, marks) = (image(1, mul(id(0), id(0))), Heights::new(1, 1, 2, 3));
    assert_eq!(run_at(&over, &[i64::MAX], 3).0, withheld(30, 3, marks));
    assert_eq!(run_at(&over, &[i64::MAX], 4).0, withheld(32, 3, marks));
}

#[test]
fn an_endless_loop_uses_the_whole_budget() {
    let image = image(1, repeat(boo(true), assign(0, sum(id(0), num(1)))));
    // A round is Loop, Boo, mark, Assign, Sum, Id, Num, mark, mark: 9 steps.
    for budget in [0, 1, 8, 9, 10, 17, 18, 900, MOST_BUDGET] {
        let (reply, registers) = run_at(&image, &[0], budget);
        // The most are met in the first round: at Sum's step, and at Num's.
        let marks = match budget {
            0 => Heights::new(1, 1, 0, 1),
            1 => Heights::new(1, 1, 1, 2),
            _ => Heights::new(1, 1, 3, 5),
        };
        assert_eq!(reply, withheld(30, budget, marks));
        assert_eq!(registers, [(budget / 9) as i64]);
    }
}

#[test]
fn budget_1000000_passes_and_one_more_is_21() {
    let image = image(0, num(3));
    let marks = Heights::new(0, 0, 1, 1);
    let number = Reply { outcome: Outcome::Number(3), steps: 1, marks };
    assert_eq!(run_at(&image, &[], 1_000_000).0, number);
    assert_eq!(run_at(&image, &[], 1_000_001).0, not_run(21, 0));
    assert_eq!(run_at(&image, &[], u64::MAX).0, not_run(21, 0));
}

/// Control empty is the end and no step, with budget left or without.
#[test]
fn the_empty_control_stack_is_no_step() {
    let routine = read(&image(0, num(3))).unwrap();
    for budget in [1, 2] {
        let mut execution = Execution::start(&routine, &[], budget);
        assert_eq!(execution.advance(), Advance::Made);
        assert!(execution.state().control.is_empty());
        assert_eq!(execution.advance(), Advance::Ended);
        assert_eq!(execution.advance(), Advance::Ended);
        assert_eq!(execution.steps(), 1);
    }
}

/// With no routine it is empty from the start, so even budget 0 is enough.
#[test]
fn no_routine_needs_no_budget() {
    for budget in [0, 1, MOST_BUDGET] {
        let expected = (ended(0, Heights::new(2, 2, 0, 0)), vec![4, 5]);
        assert_eq!(run_at(&image(2, absent()), &[4, 5], budget), expected);
    }
}

/// A withheld step changes nothing, whatever it is withheld for.
#[test]
fn a_withheld_step_can_be_asked_for_again() {
    let routine = read(&image(1, assign(0, div(num(1), num(0))))).unwrap();
    let mut execution = Execution::start(&routine, &[5], 100);
    assert_eq!(execution.finish(|_| {}), Some(31));
    let before = format!("{:?}", execution.state());
    assert_eq!(execution.advance(), Advance::Withheld(31));
    assert_eq!(format!("{:?}", execution.state()), before);
    assert_eq!(execution.steps(), 4);
}
