//! A choice without a loop, in the run: a Cond takes its first command if its test is
//! true, else its second. What that costs, which command runs, and where.

use crate::helpers::*;
use crate::sequences::body;
use second::build::*;
use second::engine::Outcome;
use second::generate::choices::else_if;
use second::tree::*;

/// A command that gathers digits in register 0.
fn digit(value: Expression) -> Command {
    assign(0, sum(mul(id(0), num(10)), value))
}

#[test]
fn the_first_command_if_true_else_the_second() {
    let set = |test| cond(test, assign(0, num(1)), assign(0, num(2)));
    assert_eq!(registers_after(set(boo(true)), &[0]), [1]);
    assert_eq!(registers_after(set(boo(false)), &[0]), [2]);
    // The test hangs on a register; each comparison on both sides of its limit.
    for start in [i64::MIN, -1, 0, 4, 5, 6, i64::MAX] {
        let taken = |first| if first { [1] } else { [2] };
        let five = || num(5);
        assert_eq!(registers_after(set(lt(id(0), five())), &[start]), taken(start < 5));
        assert_eq!(registers_after(set(gt(id(0), five())), &[start]), taken(start > 5));
        assert_eq!(registers_after(set(eq(id(0), five())), &[start]), taken(start == 5));
        assert_eq!(registers_after(set(not(eq(id(0), five()))), &[start]), taken(start != 5));
        let both = and(gt(id(0), num(3)), lt(id(0), num(6)));
        assert_eq!(registers_after(set(both), &[start]), taken(start == 4 || start == 5));
    }
    // On a cell of a truth, a plain truth, and a truth by its location.
    let cell = |truth| blk(bind_ref(1, boo(truth)), set(id(1)));
    let plain = |truth| blk(bind(1, boo(truth)), set(id(1)));
    let shown = |truth| blk(bind_ref(1, boo(truth)), blk(bind_ref(2, deref(1)), set(valref(2))));
    for (truth, left) in [(true, 1), (false, 2)] {
        for root in [cell(truth), plain(truth), shown(truth)] {
            assert_eq!(registers_after(root, &[0]), [left]);
        }
    }
}

/// Each command has a fault of its own: the one met tells which command runs, and the
/// steps before it that nothing of the other does.
#[test]
fn the_command_that_is_not_taken_does_not_run() {
    let zero = || assign(0, div(num(1), num(0)));
    let over = || assign(0, mul(id(1), id(1)));
    let starts = &[7, i64::MAX];
    // Cond, Boo, mark, Assign, the operation and its operands.
    assert_eq!(outcome(cond(boo(true), zero(), over()), starts), (refused(31, 0), 7));
    assert_eq!(outcome(cond(boo(false), zero(), over()), starts), (refused(32, 0), 7));
    // With a fault in the other one the run ends.
    let set = || assign(0, num(1));
    for (test, first, second) in [(true, set(), zero()), (false, over(), set())] {
        let (reply, registers) = run_tree(cond(boo(test), first, second), starts);
        assert_eq!((reply.outcome, reply.steps), (Outcome::None, 6));
        assert_eq!(registers, [1, i64::MAX]);
    }
    // A loop without end that is not taken.
    let endless = repeat(boo(true), set());
    assert_eq!(outcome(cond(boo(false), endless, set()), starts), (Outcome::None, 6));
    // A fault of the test comes before either.
    let test = lt(div(num(1), num(0)), num(1));
    assert_eq!(outcome(cond(test, over(), over()), starts), (refused(31, 0), 5));
}

/// Two steps, those of the test and those of the command that is taken.
#[test]
fn a_choice_is_two_steps_its_test_and_one_command() {
    let tests = [
        (boo(true), true, 1),
        (boo(false), false, 1),
        (not(boo(false)), true, 3),
        (lt(id(0), num(5)), true, 4),
        (gt(id(0), num(5)), false, 4),
        (and(lt(id(0), num(5)), not(boo(true))), false, 9),
    ];
    let commands = [
        (assign(0, num(1)), 3),
        (assign(0, sum(num(1), num(2))), 6),
        (cseq(assign(0, num(1)), assign(0, num(2))), 7),
        (blk(bind(1, num(2)), assign(0, num(1))), 9),
        (repeat(boo(false), assign(0, num(1))), 3),
    ];
    for (test, truth, tested) in &tests {
        for (first, of_first) in &commands {
            for (second, of_second) in &commands {
                let root = cond(test.clone(), first.clone(), second.clone());
                let taken = if *truth { of_first } else { of_second };
                assert_eq!(outcome(root, &[0]), (Outcome::None, 2 + tested + taken));
            }
        }
    }
}

/// In each round of a loop, by what the round before has left.
#[test]
fn in_each_round_of_a_loop() {
    // Register 1 is halved where it is even, else one less: the bits are counted.
    let even = eq(mul(div(id(1), num(2)), num(2)), id(1));
    let halve = assign(1, div(id(1), num(2)));
    let odd = cseq(assign(1, sub(id(1), num(1))), assign(0, sum(id(0), num(1))));
    let root = repeat(gt(id(1), num(0)), cond(even, halve, odd));
    for (start, bits, rounds) in [(0, 0, 0), (1, 1, 1), (6, 2, 4), (255, 8, 15), (256, 1, 9)] {
        let (reply, registers) = run_tree(root.clone(), &[0, start]);
        assert_eq!(registers, [bits, 0]);
        // Loop, its test (4) and its mark; a Cond (2) and its test (10); a command of
        // 6 steps, or of two and their CSeq.
        let steps = 6 * (rounds + 1) + 12 * rounds + 6 * (rounds - bits) + 13 * bits;
        assert_eq!((reply.outcome, reply.steps), (Outcome::None, steps as u64));
    }
    // A loop in a command, and a Cond in that loop.
    let down = || assign(1, sub(id(1), num(1)));
    let inner =
        repeat(gt(id(1), num(0)), cond(gt(id(1), num(2)), cseq(digit(num(8)), down()), down()));
    let root = cond(lt(id(1), num(9)), inner, digit(num(1)));
    assert_eq!(registers_after(root.clone(), &[0, 4]), [88, 0]);
    assert_eq!(registers_after(root, &[0, 9]), [1, 9]);
}

/// The Blk of a function chooses by its Formals, the names of its closure and its own.
#[test]
fn in_a_function() {
    let choose = cond(lt(id(3), id(4)), digit(id(3)), cond(id(5), digit(id(4)), digit(num(9))));
    let function = bind_abs(2, &[(3, 0), (5, 1)], block(bind(4, num(5)), choose));
    let calls = [(1, true), (7, true), (7, false), (4, false)]
        .map(|(number, truth)| call(2, vec![num(number), boo(truth)]));
    let root = blk(function, commands(calls.to_vec()));
    assert_eq!(registers_after(root, &[0]), [1_594]);
    // What the caller means by a name is no matter.
    let function = bind_abs(2, &[], body(cond(id(1), assign(0, num(1)), assign(0, num(2)))));
    for truth in [true, false] {
        let caller = blk(bind(1, boo(!truth)), call(2, vec![]));
        let root = blk(bind(1, boo(truth)), blk(function.clone(), caller));
        assert_eq!(registers_after(root, &[0]), [if truth { 1 } else { 2 }]);
    }
    // Which of two functions is called, and one that a command declares itself.
    let add = |name, value| bind_abs(name, &[(3, 0)], body(digit(sum(id(3), num(value)))));
    let inner = blk(add(2, 5), call(2, vec![num(3)]));
    let either = |truth| cond(boo(truth), call(1, vec![num(2)]), inner.clone());
    let root = blk(add(1, 4), cseq(either(true), either(false)));
    assert_eq!(registers_after(root, &[0]), [68]);
}

/// What a block in a command declares is left with it: names, cells and locations.
#[test]
fn blocks_in_the_commands() {
    let inside = |value| blk(bind_ref(1, num(value)), cseq(digit(id(1)), assign(1, num(0))));
    let either = |truth| cond(boo(truth), inside(5), inside(6));
    // Name 1 is 3 outside, before and after.
    let root = blk(bind(1, num(3)), commands(vec![either(true), digit(id(1)), either(false)]));
    assert_eq!(registers_after(root, &[0]), [536]);
    // A cell of outside that either command sets, hidden in one of them.
    let hide = || blk(bind_ref(1, num(7)), assign(1, num(8)));
    for (truth, left) in [(true, 4), (false, 9)] {
        let either = cond(boo(truth), hide(), assign(1, num(9)));
        let root = blk(bind_ref(1, num(4)), cseq(either, assign(0, id(1))));
        assert_eq!(registers_after(root, &[0]), [left]);
    }
}

/// As "else if": each test is made only if all before it were false.
#[test]
fn chains() {
    for count in [1, 2, 3, 12] {
        for start in 0..=i64::from(count) + 1 {
            let (reply, registers) = run_tree(else_if(count), &[start]);
            let (tests, left) = match start {
                1.. if start <= i64::from(count) => (start, 100 + start),
                _ => (i64::from(count), 0),
            };
            assert_eq!(registers, [left], "{start} of {count}");
            // Each Cond that is met is 2 steps, and its Eq 4; then an Assign of 3.
            let steps = 6 * tests as u64 + 3;
            assert_eq!((reply.outcome, reply.steps), (Outcome::None, steps));
        }
    }
    // Four commands under Conds in both commands of another.
    for (start, left) in [(1, 11), (2, 12), (3, 13), (4, 14)] {
        let low = cond(lt(id(0), num(2)), assign(0, num(11)), assign(0, num(12)));
        let high = cond(lt(id(0), num(4)), assign(0, num(13)), assign(0, num(14)));
        assert_eq!(registers_after(cond(lt(id(0), num(3)), low, high), &[start]), [left]);
    }
    // The test of the inner one sees what the command before it has stored.
    let inner = || cond(eq(id(0), num(5)), assign(0, num(50)), assign(0, num(60)));
    let root = cond(lt(id(0), num(5)), cseq(assign(0, num(5)), inner()), inner());
    assert_eq!(registers_after(root.clone(), &[1]), [50]);
    assert_eq!(registers_after(root, &[6]), [60]);
}

/// What an author wrote before: a loop that clears its own flag. The registers are the
/// same, and the Cond is cheaper.
#[test]
fn in_place_of_a_loop_that_clears_its_own_flag() {
    let test = || lt(id(0), num(5));
    let then = || digit(num(7));
    let flag = repeat(id(1), cseq(assign(1, boo(false)), then()));
    let imitated = blk(bind_ref(1, test()), flag);
    // Nothing to do otherwise: an Assign of the register to itself.
    let chosen = cond(test(), then(), assign(0, id(0)));
    for (start, left, imitation, choice) in [(4, 47, 30, 15), (5, 5, 14, 9)] {
        let (reply, registers) = run_tree(imitated.clone(), &[start]);
        assert_eq!((reply.steps, registers), (imitation, vec![left]));
        let (reply, registers) = run_tree(chosen.clone(), &[start]);
        assert_eq!((reply.steps, registers), (choice, vec![left]));
    }
}

/// The outcome, the steps and the register of a run at this budget.
fn cut_off(image: &[u32], start: i64, budget: u64) -> (Outcome, u64, i64) {
    let (reply, registers) = run_at(image, &[start], budget);
    (reply.outcome, reply.steps, registers[0])
}

/// Every budget cuts the run off at its own step; the registers change at the Assigns'
/// marks alone.
#[test]
fn every_budget() {
    let choose = cond(lt(id(0), num(5)), cseq(digit(num(1)), digit(num(2))), digit(num(3)));
    let image = image(1, cseq(choose, digit(num(4))));
    // CSeq; Cond, its test (4), mark; each digit is 9 steps, with a CSeq before two.
    let table: [(i64, &[(u64, i64)]); 2] =
        [(3, &[(17, 31), (26, 312), (35, 3_124)]), (6, &[(16, 63), (25, 634)])];
    for (start, stored) in table {
        let (whole, last) = *stored.last().unwrap();
        for budget in 0..whole {
            let before = stored.iter().rev().find(|(at, _)| *at <= budget);
            let left = before.map_or(start, |(_, left)| *left);
            assert_eq!(cut_off(&image, start, budget), (refused(30, 0), budget, left));
        }
        assert_eq!(cut_off(&image, start, whole), (Outcome::None, whole, last));
        assert_eq!(cut_off(&image, start, whole + 1), (Outcome::None, whole, last));
    }
}
