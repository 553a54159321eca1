//! Towers whose inner command starts at chosen heights of both stacks: how its run ends,
//! and after how many steps of its own.

use crate::helpers::{agreed_run, with_starts};
use compare::run::Ran;
use second::build::*;
use second::encode;
use second::generate::random::Random;
use second::generate::tower::{Tower, HELPER};
use second::generate::Case;
use second::tree::Command;

/// What comes of the run of a tower whose inner command starts at these heights,
/// compared at the greatest budget and at the last ones.
pub fn run(values: usize, control: usize, inner: Command) -> Ran {
    run_tower(&Tower::reaching(values, control, 11, inner))
}

/// The same of any tower.
fn run_tower(tower: &Tower) -> Ran {
    let random = &mut Random::new(tower.heights().values as u64);
    let case = with_starts(encode(&tower.routine()), &[0]);
    let whole = agreed_run(&case, random);
    for budget in whole.reply.steps.saturating_sub(20)..=whole.reply.steps + 1 {
        agreed_run(&Case { budget, ..case.clone() }, random);
    }
    whole
}

/// The steps that a tower makes before its inner command, told by a division by zero in its
/// place, which is withheld after some steps of its own.
fn steps_before(values: usize, control: usize) -> u64 {
    let (refused, own) = match (values, control) {
        // No room on control for the Assign's own step.
        (_, 512) => (36, 0),
        // No room on control for the Div's step behind the Assign's.
        (_, 510 | 511) => (36, 1),
        // No room on V for the Div's second operand.
        (510, _) => (35, 3),
        _ => (31, 4),
    };
    let ran = run(values, control, assign(0, div(num(1), num(0))));
    assert_eq!(ran.refused(), refused);
    ran.reply.steps - own
}

/// The refusal, or 0, and the steps made since the inner command started.
pub fn end(values: usize, control: usize, inner: Command) -> (u32, u64) {
    end_with_formals(values, control, inner, 0)
}

/// The same for a call of the helper with so many actuals.
pub fn end_of_call(values: usize, control: usize, count: usize) -> (u32, u64) {
    end_with_formals(values, control, call(HELPER, vec![id(0); count]), count)
}

/// The same where the helper has so many Formals.
fn end_with_formals(
    values: usize,
    control: usize,
    inner: Command,
    helper_formals: usize,
) -> (u32, u64) {
    let ran = run_tower(&Tower { helper_formals, ..Tower::reaching(values, control, 11, inner) });
    (ran.refused(), ran.reply.steps - steps_before(values, control))
}

/// How many runs of these commands end normally, with 35 and with 36, from every height
/// of V and of control among these.
pub fn ends(
    commands: &[Command],
    values: std::ops::RangeInclusive<usize>,
    control: std::ops::RangeInclusive<usize>,
) -> [usize; 3] {
    let mut ended = [0; 3];
    for inner in commands {
        for values in values.clone().step_by(2) {
            for control in control.clone() {
                match run(values, control, inner.clone()).refused() {
                    0 => ended[0] += 1,
                    35 => ended[1] += 1,
                    36 => ended[2] += 1,
                    other => panic!("{other} at {values} and {control}"),
                }
            }
        }
    }
    ended
}
