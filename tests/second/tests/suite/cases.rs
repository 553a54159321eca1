//! Cases A to L and the further cases of the paper, with all its figures.

use crate::helpers::*;
use second::build::*;
use second::engine::{Answer, Outcome, Reply, MOST_BUDGET};
use second::state::Heights;
use second::store::Location;

/// Words 5 0, 6 1 4 1 1, 0 5 0 3 2: 5 × (3 + 2).
const CALCULATOR: [u32; 12] = [5, 0, 6, 1, 4, 1, 1, 0, 5, 0, 3, 2];
/// Document 000 traces this run: most on V is 3 and on control 4.
const CALCULATED: Reply =
    Reply { outcome: Outcome::Number(25), steps: 7, marks: Heights::new(0, 0, 3, 4) };

#[test]
fn a_calculator_gives_25_in_7_steps() {
    assert_eq!(image(0, mul(num(5), sum(num(3), num(2)))), CALCULATOR);
    let (reply, _) = run_at(&CALCULATOR, &[], MOST_BUDGET);
    assert_eq!(reply, CALCULATED);
}

#[test]
fn b_budget_6_is_too_little_and_7_enough() {
    let marks = CALCULATED.marks;
    assert_eq!(run_at(&CALCULATOR, &[], 6).0, withheld(30, 6, marks));
    assert_eq!(run_at(&CALCULATOR, &[], 7).0, CALCULATED);
}

#[test]
fn c_budget_0_makes_no_step() {
    assert_eq!(run_at(&CALCULATOR, &[], 0).0, withheld(30, 0, Heights::new(0, 0, 0, 1)));
}

#[test]
fn d_subtraction_is_first_minus_second() {
    assert_eq!(outcome(sub(num(3), num(5)), &[]), (Outcome::Number(-2), 4));
}

#[test]
fn e_zero_divisor() {
    assert_eq!(outcome(div(num(1), num(0)), &[]), (refused(31, 0), 3));
}

#[test]
fn f_division_gives_the_largest_integer_not_above_the_quotient() {
    assert_eq!(outcome(div(id(0), num(2)), &[-7]), (Outcome::Number(-4), 4));
}

#[test]
fn g_factorial_of_3() {
    let (reply, registers) = run_tree(factorial(), &[1, 3]);
    assert_eq!(reply, ended(71, Heights::new(2, 2, 3, 6)));
    assert_eq!(registers, [6, 0]);
}

#[test]
fn g_factorial_of_20() {
    let (reply, registers) = run_tree(factorial(), &[1, 20]);
    assert_eq!(reply, ended(428, Heights::new(2, 2, 3, 6)));
    assert_eq!(registers, [2_432_902_008_176_640_000, 0]);
}

#[test]
fn g_factorial_of_21_leaves_the_integers() {
    let (reply, registers) = run_tree(factorial(), &[1, 21]);
    assert_eq!(reply, withheld(32, 391, Heights::new(2, 2, 3, 6)));
    assert_eq!(registers, [8_515_157_028_618_240_000, 3]);
}

#[test]
fn h_block_with_a_cell() {
    let root = blk(bind_ref(1, id(0)), assign(0, sum(id(1), id(1))));
    let (reply, registers) = run_tree(root, &[5]);
    assert_eq!(reply, ended(14, Heights::new(2, 2, 5, 6)));
    assert_eq!(registers, [10]);
}

#[test]
fn i_function_with_a_formal() {
    let body = block(bind_ref(3, id(2)), assign(0, id(3)));
    let root = blk(bind_abs(1, &[(2, 0)], body), call(1, vec![num(7)]));
    let (reply, registers) = run_tree(root, &[0]);
    assert_eq!(reply, ended(21, Heights::new(2, 4, 8, 8)));
    assert_eq!(registers, [7]);
}

#[test]
fn j_cell_that_holds_a_location() {
    let root = blk(bind_ref(1, deref(0)), assign(0, sum(valref(1), num(1))));
    let (reply, registers) = run_tree(root, &[9]);
    assert_eq!(reply, ended(14, Heights::new(2, 2, 5, 6)));
    assert_eq!(registers, [10]);
}

#[test]
fn k_cell_that_holds_a_location_is_not_assignable() {
    let root = blk(bind_ref(1, deref(0)), assign(1, deref(0)));
    let (reply, registers) = run_tree(root.clone(), &[9]);
    assert_eq!(reply, not_run(13, 4));
    assert_eq!(registers, [9]);
    assert_eq!(checked_tree(1, root), answer_refused(13, 4));
}

#[test]
fn l_a_later_declaration_sees_an_earlier_one() {
    let declaration = dseq(bind_ref(1, num(1)), bind_ref(2, id(1)));
    let root = blk(declaration, assign(1, num(0)));
    assert_eq!(outcome(root.clone(), &[]), (Outcome::None, 19));
    assert_eq!(checked_tree(0, root), Answer::Command);
}

#[test]
fn checker_answers_the_roots_code_or_command() {
    assert_eq!(checked(&CALCULATOR), Answer::Code(0));
    assert_eq!(checked_tree(0, eq(num(1), num(2))), Answer::Code(1));
    assert_eq!(checked_tree(1, deref(0)), Answer::Code(2));
    assert_eq!(checked_tree(2, factorial()), Answer::Command);
}

#[test]
fn outcomes_of_each_sort() {
    assert_eq!(outcome(id(0), &[-5]), (Outcome::Number(-5), 1));
    assert_eq!(outcome(boo(true), &[]), (Outcome::Truth(true), 1));
    assert_eq!(outcome(boo(false), &[]), (Outcome::Truth(false), 1));
    assert_eq!(outcome(deref(2), &[7, 8, 9]), (Outcome::Cell(Location(2)), 1));
    assert_eq!(outcome(num(u32::MAX), &[]), (Outcome::Number(4_294_967_295), 1));
}
