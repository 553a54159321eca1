//! The Blk of a function whose call has filled V, where control has no room for its four
//! entries either: both stacks pass 512 in one step, and control is named.

use super::towers::end_of_call;
use crate::helpers::*;
use second::generate::random::Random;
use second::generate::Case;

/// At every height of both stacks near there, with the steps made: the Call's, its mark's
/// and those of the function.
#[test]
fn the_control_stack_is_named_first() {
    let end = |values, control| end_of_call(values, control, 0);
    for control in [509, 510, 511] {
        assert_eq!(end(510, control), (36, 2));
        // V has room.
        assert_eq!((end(508, control), end(506, control)), ((36, 2), (36, 2)));
    }
    // Control has room for the Blk, and V has none.
    assert_eq!((end(510, 508), end(510, 507)), ((35, 2), (35, 2)));
    // Both have, and the function's Bind or its value is withheld.
    assert_eq!((end(508, 508), end(508, 507)), ((36, 3), (35, 4)));
    assert_eq!((end(506, 508), end(506, 507).0), ((36, 3), 0));
    // Control has no room for what the Call's mark leaves.
    assert_eq!((end(510, 512), end(508, 512)), ((36, 1), (36, 1)));
}

/// One actual and two are off V again at the mark; a third has no room there. A Call puts
/// all its actuals on control with its mark.
#[test]
fn the_control_stack_is_named_first_with_actuals() {
    let table = [
        (1, [(508, 35, 3), (509, 36, 3), (510, 36, 3), (511, 36, 3), (512, 36, 0)]),
        (2, [(508, 35, 4), (509, 36, 4), (510, 36, 4), (511, 36, 0), (512, 36, 0)]),
        (3, [(508, 35, 3), (509, 35, 3), (510, 36, 0), (511, 36, 0), (512, 36, 0)]),
    ];
    for (count, rows) in table {
        for (control, refused, steps) in rows {
            assert_eq!(end_of_call(510, control, count), (refused, steps), "{count}, {control}");
        }
    }
}

/// The registers are as before the step, and a budget that is used up there comes first.
#[test]
fn registers_and_budgets_around_the_step() {
    let random = &mut Random::new(2);
    for (control, number) in [(507, 35), (508, 35), (509, 36), (510, 36), (511, 36)] {
        let case = with_starts(call_with_full_values(control), &[-5]);
        let steps = steps_before_the_blk(control);
        for budget in steps - 3..=steps + 3 {
            let ran = agreed_run(&Case { budget, ..case.clone() }, random);
            let expected = if budget <= steps { (30, budget) } else { (number, steps) };
            assert_eq!((ran.refused(), ran.reply.steps), expected, "{control}");
            assert_eq!(ran.registers, [77], "{control}");
        }
        assert_eq!(agreed_run(&case, random).refused(), number);
    }
}
