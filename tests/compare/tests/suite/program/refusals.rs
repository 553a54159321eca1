//! Each refusal of the list that the program can give. 20 to 22 are the host's:
//! the program's own call has as many registers as r says, a budget of 1,000,000
//! and work words enough.

use crate::helpers::*;
use second::build::*;
use second::encode;
use second::encode::program_input;
use second::generate::tower::{Tower, HELPER};
use second::tree::{Command, Declaration, Root};

fn output_of(root: impl Into<Root>, starts: &[i64]) -> String {
    agreed_output(&program_input(&image(starts.len() as u32, root), starts))
}

/// Refused before the first step: the marks are 0, and the registers are not printed.
fn before_the_run(number: u32, place: u32) -> String {
    format!("refused {number} at {place}\nsteps 0\nmost 0 0 0 0\n")
}

#[test]
fn refusals_1_to_6() {
    let table: [(&[u32], u32, u32); 20] = [
        (&[], 1, 0),
        (&[1], 1, 0),
        (&[1, 0], 1, 0),
        (&[1, 0, 1], 1, 0),
        (&[1, 0, 1, 7, 7], 1, 0),
        (&[0, 0, 1], 1, 0),
        (&[0, 17], 2, 0),
        (&[1, 17, 1, 7], 2, 0),
        (&[1, 0, 18, 0], 3, 0),
        (&[2, 0, 15, 99, 0, 0], 3, 1),
        (&[1, 0, 2, 2], 4, 0),
        (&[2, 0, 15, 2, 0, 9], 4, 1),
        (&[1, 0, 15, 0], 5, 1),
        (&[1, 0, 30, 0], 5, 0),
        (&[2, 0, 1, 1, 0, 0], 5, 1),
        (&[1, 0, 26, 0], 3, 0),
        (&[4, 0, 25, 2, 24, 24, 1, 1, 0, 0], 4, 0),
        (&[3, 0, 25, 2, 24, 0, 1, 0], 5, 3),
        (&[4, 0, 25, 24, 2, 24, 0, 0, 1, 0], 5, 1),
        (&[5, 0, 25, 2, 24, 24, 24, 0, 1, 0, 0, 0], 5, 4),
    ];
    for (words, number, place) in table {
        let input = program_input(words, &[]);
        assert_eq!(agreed_output(&input), before_the_run(number, place), "{words:?}");
    }
    let deep = (0..64).fold(boo(true), |value, _| not(value));
    assert_eq!(output_of(deep, &[]), before_the_run(6, 64));
}

#[test]
fn refusals_10_to_14() {
    let function = || bind_abs(1, &[(2, 0)], block(bind(3, num(0)), assign(0, id(2))));
    let repeated = dseq(bind(1, num(1)), bind(1, id(1)));
    let too_early = dseq(bind(2, id(1)), bind(1, num(1)));
    let set = || assign(0, num(0));
    let table: [(Command, u32, u32); 12] = [
        (assign(0, id(1)), 10, 1),
        (assign(1, num(0)), 10, 0),
        (assign(0, boo(true)), 11, 0),
        (repeat(num(1), set()), 11, 0),
        (cond(num(1), set(), set()), 11, 0),
        (cond(boo(true), set(), assign(0, id(1))), 10, 5),
        (cond(boo(false), assign(0, boo(true)), set()), 11, 2),
        (blk(repeated, assign(0, num(0))), 12, 1),
        (blk(too_early, assign(0, num(0))), 10, 3),
        (blk(bind(1, num(1)), assign(1, num(2))), 13, 3),
        (blk(function(), call(1, vec![])), 14, 9),
        (blk(function(), call(1, vec![boo(true)])), 11, 9),
    ];
    for (root, number, place) in table {
        assert_eq!(output_of(root.clone(), &[5]), before_the_run(number, place), "{root:?}");
    }
}

#[test]
fn refusals_30_to_32() {
    assert_eq!(
        output_of(repeat(boo(true), assign(0, num(7))), &[5]),
        "refused 30 at 0\nsteps 1000000\nmost 1 1 2 3\nregister 0 7\n"
    );
    let both = cseq(assign(0, num(8)), assign(1, div(id(0), id(1))));
    assert_eq!(
        output_of(both, &[5, 0]),
        "refused 31 at 0\nsteps 8\nmost 2 2 3 4\nregister 0 8\nregister 1 0\n"
    );
    assert_eq!(
        output_of(sum(id(0), num(1)), &[i64::MAX]),
        "refused 32 at 0\nsteps 3\nmost 1 1 2 3\nregister 0 9223372036854775807\n"
    );
    assert_eq!(
        output_of(div(id(0), id(1)), &[i64::MIN, -1]),
        "refused 32 at 0\nsteps 3\nmost 2 2 2 3\n\
         register 0 -9223372036854775808\nregister 1 -1\n"
    );
}

/// As many turns of a loop as the budget has room for, and one more.
#[test]
fn the_budget_is_one_million() {
    let turns = |count: i64| {
        let down = repeat(lt(num(0), id(0)), assign(0, sub(id(0), num(1))));
        output_of(down, &[count])
    };
    let steps = |output: &str| -> u64 {
        let line = output.lines().nth(1).expect("the steps");
        line.strip_prefix("steps ").expect("the steps").parse().expect("a number")
    };
    let (none, one) = (steps(&turns(0)), steps(&turns(1)));
    let most = (1_000_000 - none) / (one - none);
    let last = turns(most as i64);
    let left = "\nmost 1 1 3 5\nregister 0 0\n";
    assert!(last.starts_with("none\n") && last.ends_with(left), "{last}");
    let over = turns(most as i64 + 1);
    assert!(over.starts_with("refused 30 at 0\nsteps 1000000\nmost 1 1 3 5\n"), "{over}");
}

/// Blocks one in the other, each with so many declarations.
fn nested(blocks: usize, names: u32, declaration: fn(u32) -> Declaration) -> Command {
    (0..blocks).fold(assign(0, num(1)), |inner, _| {
        blk(declarations((1..=names).map(declaration).collect()), inner)
    })
}

/// 256 cells and 512 bindings may be; one more may not, and is no mark.
#[test]
fn refusals_33_and_34() {
    let cells = |names| nested(5, names, |name| bind_ref(name, num(4)));
    let plain = |names| nested(9, names, |name| bind(name, num(4)));
    let table = [
        (cells(51), 1, "none\n", "\nmost 256 256 "),
        (cells(51), 2, "refused 33 at 0\n", "\nmost 256 256 "),
        (plain(56), 8, "none\n", "\nmost 8 512 "),
        (plain(56), 9, "refused 34 at 0\n", "\nmost 9 512 "),
    ];
    for (root, registers, outcome, marks) in table {
        let output = output_of(root, &vec![3; registers]);
        assert!(output.starts_with(outcome) && output.contains(marks), "{output}");
        let changed = if outcome == "none\n" { 1 } else { 3 };
        assert!(output.contains(&format!("\nregister 0 {changed}\n")), "{output}");
        assert_eq!(output.lines().count(), 3 + registers);
    }
}

/// What the program prints for towers whose inner command starts at these heights of V
/// and control.
fn at_heights(inner: &Command, rows: &[(usize, usize, &str)]) {
    for (values, control, outcome) in rows {
        let tower = Tower::reaching(*values, *control, 11, inner.clone());
        let input = program_input(&encode(&tower.routine()), &vec![0; tower.registers]);
        let output = agreed_output(&input);
        assert!(output.starts_with(outcome), "{values} and {control}: {output}");
    }
}

#[test]
fn refusals_35_and_36() {
    let rows = [
        (506, 400, "none\n"),
        (508, 400, "refused 35 at 0\n"),
        (100, 507, "none\n"),
        (100, 508, "refused 36 at 0\n"),
        (510, 508, "refused 35 at 0\n"),
        (510, 509, "refused 36 at 0\n"),
        (510, 511, "refused 36 at 0\n"),
        (510, 512, "refused 36 at 0\n"),
    ];
    at_heights(&call(HELPER, vec![]), &rows);
}

/// Both stacks full at the Blk of a function that is called, and V alone: all that is
/// printed, with the register that was set before.
#[test]
fn refusal_36_where_both_stacks_are_full() {
    for (control, number) in [(507, 35), (508, 35), (509, 36), (510, 36), (511, 36)] {
        let output = agreed_output(&program_input(&call_with_full_values(control), &[5]));
        let steps = steps_before_the_blk(control);
        // 244 blocks bind a name each; the call's mark leaves 512 on V and one more than the
        // Call on control.
        let most = format!("most 1 245 512 {}", control + 1);
        let expected = format!("refused {number} at 0\nsteps {steps}\n{most}\nregister 0 77\n");
        assert_eq!(output, expected, "{control}");
    }
}

/// At a DSeq: its own four entries of control, and the kept E while its second
/// declaration runs.
#[test]
fn refusals_35_and_36_at_a_sequence() {
    let rows = [
        (506, 505, "none\n"),
        (508, 400, "refused 35 at 0\n"),
        (100, 506, "refused 36 at 0\n"),
        (100, 507, "refused 36 at 0\n"),
    ];
    at_heights(&blk(dseq(bind(1, num(4)), bind(2, id(1))), assign(0, id(2))), &rows);
}

/// At a Cond: its own entry of control, and its own of the value stack while its test
/// runs.
#[test]
fn refusals_35_and_36_at_a_choice() {
    let rows = [
        (508, 509, "none\n"),
        (510, 400, "refused 35 at 0\n"),
        (100, 510, "refused 36 at 0\n"),
        (100, 512, "refused 36 at 0\n"),
    ];
    at_heights(&cond(lt(id(0), num(1)), assign(0, num(4)), assign(0, num(5))), &rows);
}
