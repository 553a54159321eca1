//! A choice without a loop, state by state: the Cond is one entry of V while its test
//! runs, and behind its mark all is as if the command that it takes had stood there.

use crate::helpers::*;
use crate::sequences::body;
use crate::towers::named;
use second::build::*;
use second::engine::{Outcome, MOST_BUDGET};
use second::execution::Execution;
use second::reader::read;
use second::state::{Heights, ValueEntry};
use second::store::Value;
use second::tree::*;

/// One state in words: control with its top first, V with its top last.
#[derive(Debug, PartialEq)]
struct Shown {
    control: String,
    values: String,
    heights: Heights,
    registers: Vec<i64>,
}

fn value_named(entry: &ValueEntry) -> String {
    match entry {
        ValueEntry::Value(Value::Integer(number)) => number.to_string(),
        ValueEntry::Value(Value::Truth(truth)) => truth.to_string(),
        ValueEntry::Value(Value::Location(location)) => format!("cell {}", location.0),
        ValueEntry::Closure(_) => "closure".to_string(),
        ValueEntry::Name(name) => format!("name {name}"),
        ValueEntry::Loop(_) => "Loop".to_string(),
        ValueEntry::Cond(_) => "Cond".to_string(),
        ValueEntry::Environment(_) => "E".to_string(),
        ValueEntry::Locations(_) => "L".to_string(),
    }
}

/// Every state of a run.
fn states(root: &Command, starts: &[i64]) -> Vec<Shown> {
    let routine = read(&image(starts.len() as u32, root.clone())).unwrap();
    let mut all = Vec::new();
    Execution::start(&routine, starts, MOST_BUDGET).finish(|at| {
        let state = at.state();
        let control: Vec<_> = state.control.iter().rev().map(named).collect();
        let values: Vec<_> = state.values.iter().map(value_named).collect();
        all.push(Shown {
            control: control.join(", "),
            values: values.join(", "),
            heights: state.heights(),
            registers: state.registers(starts.len()),
        });
    });
    all
}

/// What is on control and on V in every state.
fn stacks(root: &Command, starts: &[i64]) -> Vec<(String, String)> {
    states(root, starts).into_iter().map(|shown| (shown.control, shown.values)).collect()
}

fn in_words(expected: &[(&str, &str)]) -> Vec<(String, String)> {
    expected.iter().map(|(control, values)| (control.to_string(), values.to_string())).collect()
}

#[test]
fn every_state_of_a_choice() {
    let root = cond(lt(id(0), num(5)), assign(0, num(1)), assign(1, num(2)));
    let test =
        [("Cond", ""), ("Lt, mark of Cond", "Cond"), ("Id, Num, mark of Lt, mark of Cond", "Cond")];
    let first = [
        ("Num, mark of Lt, mark of Cond", "Cond, 3"),
        ("mark of Lt, mark of Cond", "Cond, 3, 5"),
        ("mark of Cond", "Cond, true"),
        ("Assign", ""),
        ("Num, mark of Assign", "name 0"),
        ("mark of Assign", "name 0, 1"),
        ("", ""),
    ];
    assert_eq!(stacks(&root, &[3, 0]), in_words(&[&test[..], &first].concat()));
    let second = [
        ("Num, mark of Lt, mark of Cond", "Cond, 7"),
        ("mark of Lt, mark of Cond", "Cond, 7, 5"),
        ("mark of Cond", "Cond, false"),
        ("Assign", ""),
        ("Num, mark of Assign", "name 1"),
        ("mark of Assign", "name 1, 2"),
        ("", ""),
    ];
    assert_eq!(stacks(&root, &[7, 0]), in_words(&[&test[..], &second].concat()));
}

/// In a round of a Loop, which is on control below; and one Cond in the other, of which
/// the outer one is off V before the inner one is on it.
#[test]
fn every_state_of_a_choice_in_a_loop_and_in_another() {
    let clear =
        cond(boo(true), cond(boo(false), assign(0, num(1)), assign(0, num(0))), assign(0, num(2)));
    let root = repeat(gt(id(0), num(0)), clear);
    let round = [
        ("Cond, Loop", ""),
        ("Boo, mark of Cond, Loop", "Cond"),
        ("mark of Cond, Loop", "Cond, true"),
        ("Cond, Loop", ""),
        ("Boo, mark of Cond, Loop", "Cond"),
        ("mark of Cond, Loop", "Cond, false"),
        ("Assign, Loop", ""),
        ("Num, mark of Assign, Loop", "name 0"),
        ("mark of Assign, Loop", "name 0, 0"),
        ("Loop", ""),
    ];
    // Loop, its test (4) and its mark come before and after.
    let all = stacks(&root, &[9]);
    assert_eq!(all[6..6 + round.len()], in_words(&round));
    assert_eq!(all.len(), 6 + 9 + 6 + 1);
}

/// In a function's Blk in a block: what was below it on both stacks stays.
#[test]
fn every_state_of_a_choice_in_a_call() {
    let function = bind_abs(1, &[(2, 1)], body(cond(id(2), assign(0, num(1)), assign(0, num(2)))));
    let root = blk(function, call(1, vec![boo(false)]));
    let expected = [
        ("Cond, mark of Blk, mark of Blk, mark of Blk", "L, E, L, E, L, E"),
        ("Id, mark of Cond, mark of Blk, mark of Blk, mark of Blk", "L, E, L, E, L, E, Cond"),
        ("mark of Cond, mark of Blk, mark of Blk, mark of Blk", "L, E, L, E, L, E, Cond, false"),
        ("Assign, mark of Blk, mark of Blk, mark of Blk", "L, E, L, E, L, E"),
        ("Num, mark of Assign, mark of Blk, mark of Blk, mark of Blk", "L, E, L, E, L, E, name 0"),
        ("mark of Assign, mark of Blk, mark of Blk, mark of Blk", "L, E, L, E, L, E, name 0, 2"),
        ("mark of Blk, mark of Blk, mark of Blk", "L, E, L, E, L, E"),
        ("mark of Blk, mark of Blk", "L, E, L, E"),
        ("mark of Blk", "L, E"),
        ("", ""),
    ];
    let all = stacks(&root, &[9]);
    // Blk, Bind, Abs, two marks; Call, Boo, mark; Blk, Bind, Num, two marks.
    assert_eq!(all[13..], in_words(&expected));
}

/// What may stand around a command.
fn surrounded(command: Command) -> [Command; 5] {
    let set = || assign(1, num(8));
    [
        command.clone(),
        cseq(set(), command.clone()),
        cseq(command.clone(), set()),
        blk(bind_ref(10, num(3)), cseq(command.clone(), assign(1, id(10)))),
        blk(bind_abs(11, &[(12, 0)], body(command)), call(11, vec![num(4)])),
    ]
}

/// Tests with their truth and their steps, which change nothing.
fn tests() -> [(Expression, bool, usize); 4] {
    [
        (boo(true), true, 1),
        (boo(false), false, 1),
        (lt(id(0), num(5)), true, 4),
        (and(boo(true), not(lt(id(0), num(5)))), false, 9),
    ]
}

/// Behind the mark every state, and every answer with its registers at every budget, is
/// that of the run with the command alone, later by two steps and those of the test.
#[test]
fn as_if_the_taken_command_had_stood_there() {
    let commands = [
        assign(0, sum(id(0), num(1))),
        blk(bind_ref(2, id(0)), cseq(assign(2, num(6)), assign(0, id(2)))),
        repeat(lt(id(0), num(3)), assign(0, sum(id(0), num(1)))),
        cseq(assign(0, num(1)), assign(0, div(id(0), num(0)))),
    ];
    let other = || assign(0, num(99));
    for (test, truth, tested) in tests() {
        for command in &commands {
            let choice = match truth {
                true => cond(test.clone(), command.clone(), other()),
                false => cond(test.clone(), other(), command.clone()),
            };
            let both = surrounded(choice).into_iter().zip(surrounded(command.clone()));
            for (chosen, alone) in both {
                compare_shifted(&chosen, &alone, 2 + tested);
            }
        }
    }
}

fn compare_shifted(chosen: &Command, alone: &Command, later: usize) {
    let starts = &[1, 0];
    let (states_chosen, states_alone) = (states(chosen, starts), states(alone, starts));
    let at = states_chosen.iter().position(|shown| shown.control.starts_with("Cond")).unwrap();
    assert_eq!(states_chosen[at + later..], states_alone[at..]);
    let (image_chosen, image_alone) = (image(2, chosen.clone()), image(2, alone.clone()));
    for budget in at as u64..=states_alone.len() as u64 {
        let (reply, registers) = run_at(&image_alone, starts, budget);
        let later = later as u64;
        let (shifted, left) = run_at(&image_chosen, starts, budget + later);
        assert_eq!((shifted.outcome, shifted.steps), (reply.outcome, reply.steps + later));
        assert_eq!(left, registers);
    }
}

/// The truth and the Cond are both off V at the end, for a root that is a Cond.
#[test]
fn a_root_leaves_nothing_on_either_stack() {
    for (test, _, _) in tests() {
        let root = cond(test, assign(0, num(1)), blk(bind_ref(1, num(2)), assign(0, id(1))));
        assert_eq!(outcome(root.clone(), &[0]).0, Outcome::None);
        let last = states(&root, &[0]).pop().unwrap();
        let left = Heights { cells: 1, bindings: 1, values: 0, control: 0 };
        assert_eq!((last.control.as_str(), last.heights), ("", left));
    }
}
