//! Conds: each of many commands taken in turn, in every shape, in rounds, in functions
//! and blocks, at every budget.

use crate::helpers::*;
use second::build::*;
use second::tree::{Blk, Command, Name};

/// A Cond for each command but one, so that the command of number i is taken exactly if
/// name 1 holds i: in each other's second command, in each other's first, or balanced.
fn shapes(all: &[Command]) -> [Command; 3] {
    [else_if(all), by_limits(all), balanced(0, all)]
}

fn else_if(all: &[Command]) -> Command {
    let (last, others) = all.split_last().expect("a command");
    others.iter().enumerate().rev().fold(last.clone(), |otherwise, (number, command)| {
        cond(eq(id(1), num(number as u32)), command.clone(), otherwise)
    })
}

fn by_limits(all: &[Command]) -> Command {
    let (first, others) = all.split_first().expect("a command");
    others.iter().zip(1..).fold(first.clone(), |below, (command, number)| {
        cond(lt(id(1), num(number)), below, command.clone())
    })
}

/// The first command is of this number.
fn balanced(number: usize, all: &[Command]) -> Command {
    if let [command] = all {
        return command.clone();
    }
    let (below, above) = all.split_at(all.len() / 2);
    let limit = number + below.len();
    cond(lt(id(1), num(limit as u32)), balanced(number, below), balanced(limit, above))
}

/// A command that adds a digit to register 0.
fn digit(number: u32) -> Command {
    assign(0, sum(mul(id(0), num(10)), num(number)))
}

fn down(counter: Name) -> Command {
    assign(counter, sub(id(counter), num(1)))
}

/// A function's Blk with a cell of its own.
fn body(command: Command) -> Blk {
    block(bind_ref(50, num(1)), command)
}

#[test]
fn each_command_in_turn() {
    for count in [2, 3, 5, 8] {
        let all: Vec<_> = (0..count).map(digit).collect();
        for shape in shapes(&all) {
            for number in 0..i64::from(count) {
                assert_eq!(registers_after(shape.clone(), &[7, number]), [70 + number, number]);
            }
        }
    }
}

/// A number that no command has: the last command of a row of "else if", the first or the
/// last one of the comparisons.
#[test]
fn numbers_outside() {
    let all: Vec<_> = (0..4).map(digit).collect();
    for (start, taken) in [(-1, [3, 0, 0]), (i64::MIN, [3, 0, 0]), (4, [3; 3]), (i64::MAX, [3; 3])]
    {
        for (shape, taken) in shapes(&all).into_iter().zip(taken) {
            assert_eq!(registers_after(shape, &[0, start]), [taken, start]);
        }
    }
}

/// A zero divisor in one command and an overflow in the next: each is met exactly if its
/// command is taken.
#[test]
fn faults_in_each_command() {
    for faulty in 0..6 {
        let command = |number| match number {
            _ if number == faulty => assign(0, div(num(1), num(0))),
            _ if number == (faulty + 1) % 6 => assign(0, mul(id(2), id(2))),
            _ => digit(number),
        };
        let all: Vec<_> = (0..6).map(command).collect();
        for shape in shapes(&all) {
            for number in 0..6 {
                let ran = agreed_tree_run(shape.clone(), &[7, i64::from(number), i64::MAX]);
                let (refused, left) = match number {
                    _ if number == faulty => (31, 7),
                    _ if number == (faulty + 1) % 6 => (32, 7),
                    _ => (0, 70 + i64::from(number)),
                };
                assert_eq!((ran.refused(), ran.registers[0]), (refused, left));
            }
        }
    }
}

/// The truths of three registers take one of eight commands.
#[test]
fn every_row_of_truths() {
    let test = |name: Name| gt(id(name), num(0));
    let row = |number: u32| {
        let last = |number| cond(test(3), digit(number), digit(number + 1));
        cond(test(2), last(number), last(number + 2))
    };
    let root = cond(test(1), row(0), row(4));
    for number in 0..8 {
        let truth = |bit: i64| i64::from(number & bit == 0);
        let starts = [0, truth(4), truth(2), truth(1)];
        assert_eq!(registers_after(root.clone(), &starts)[0], number);
    }
}

/// Another command in each round, and the test of the next round sees what it stored.
#[test]
fn in_rounds() {
    for count in [3, 7] {
        let all: Vec<_> = (0..count).map(digit).collect();
        for shape in shapes(&all) {
            let root = repeat(not(lt(id(1), num(0))), cseq(shape, down(1)));
            let digits = (0..i64::from(count)).rev().fold(0, |total, digit| 10 * total + digit);
            assert_eq!(registers_after(root, &[0, i64::from(count) - 1]), [digits, -1]);
        }
    }
    // The command decides on the next round: 0 to 1, 1 to 2, 2 to 0, until 4 digits.
    let next = |to: u32| cseq(digit(to), assign(1, num(to)));
    for shape in shapes(&[next(1), next(2), next(0)]) {
        let root = repeat(lt(id(0), num(1_000)), shape);
        assert_eq!(registers_after(root, &[1, 1]), [1_201, 1]);
    }
}

/// Three hundred rounds with a block, a call and a loop as commands: no cell, binding or
/// entry is used up.
#[test]
fn nothing_is_kept_from_one_round_to_the_next() {
    let add = bind_abs(10, &[(20, 0)], body(assign(0, sum(id(0), id(20)))));
    let inside =
        blk(bind_ref(4, num(1)), blk(bind_ref(5, deref(4)), assign(0, sum(id(0), valref(5)))));
    let rounds = blk(bind_ref(4, num(3)), repeat(gt(id(4), num(0)), down(4)));
    for shape in shapes(&[inside, call(10, vec![num(1)]), rounds]) {
        let turn = cond(lt(id(1), num(2)), assign(1, sum(id(1), num(1))), assign(1, num(0)));
        let round = commands(vec![shape, turn, down(2)]);
        let root = blk(add.clone(), repeat(gt(id(2), num(0)), round));
        // Two of three commands add one.
        assert_eq!(registers_after(root, &[0, 0, 300]), [200, 0, 0]);
    }
}

/// A function chooses by its Formal, whatever the caller means by its name; functions
/// that call the one before them on either way.
#[test]
fn in_functions() {
    let all: Vec<_> = (0..4).map(digit).collect();
    for shape in shapes(&all) {
        let function = bind_abs(10, &[(1, 0)], body(shape));
        let calls = [2, 0, 3, 1].map(|number| call(10, vec![num(number)]));
        let root = blk(function, blk(bind(1, num(9)), commands(calls.to_vec())));
        assert_eq!(registers_after(root, &[0]), [2_031]);
    }
    // Each function calls the one before it once or twice: as many times as the sum of
    // what the Formal leaves.
    let mut functions = vec![bind_abs(10, &[(20, 0)], body(assign(0, sum(id(0), id(20)))))];
    for level in 1..6 {
        let down = || call(10 + level - 1, vec![id(20)]);
        let twice = cseq(down(), down());
        let either = cond(eq(id(20), num(level)), down(), twice);
        functions.push(bind_abs(10 + level, &[(20, 0)], body(either)));
    }
    for (actual, total) in [(0, 0), (1, 16), (3, 48), (6, 192)] {
        let root = blk(declarations(functions.clone()), call(15, vec![num(actual)]));
        assert_eq!(registers_after(root, &[0]), [total]);
    }
}

/// Names and cells of a block in one command are the block's: behind the Cond each name
/// means what it meant, whichever command was taken.
#[test]
fn blocks_in_the_commands() {
    let hide = |name: Name| blk(bind_ref(name, num(9)), assign(name, num(8)));
    let all: Vec<_> = (10..14).map(hide).collect();
    let names: Vec<Name> = (10..14).collect();
    let cells = names.iter().map(|name| bind_ref(*name, num(*name))).collect();
    let declaration = declarations(cells);
    for shape in shapes(&all) {
        for number in 0..4 {
            let root = blk(declaration.clone(), cseq(shape.clone(), gather(&names)));
            assert_eq!(registers_after(root, &[0, number])[0], gathered(10..14));
        }
    }
    // A cell of outside is set in one command through a location in the other's name.
    let set = || blk(bind(11, deref(10)), assign(11, num(6)));
    for (start, left) in [(0, 6), (1, 5)] {
        let choice = cond(eq(id(1), num(0)), set(), blk(bind_ref(10, num(7)), set()));
        let root = blk(bind_ref(10, num(5)), cseq(choice, assign(0, id(10))));
        assert_eq!(registers_after(root, &[0, start])[0], left);
    }
}
