//! The needs of texts: figures, a Loop, and refusals.

use crate::binary::*;

/// Five figures, one a line.
fn figures(room: [u32; 4], steps: &str) -> String {
    let [control, values, cells, bindings] = room;
    let room = format!("control {control}\nvalues {values}\ncells {cells}\nbindings {bindings}\n");
    format!("{room}steps {steps}\n")
}

fn needs(text: &str) -> String {
    text_said(&["needs", "-"], text.as_bytes())
}

#[test]
fn figures_one_a_line() {
    assert_eq!(needs(DOUBLE), figures([6, 5, 2, 2], "14"));
    assert_eq!(
        needs("registers 0 (Mul (Num 5) (Sum (Num 3) (Num 2)))"),
        figures([4, 3, 0, 0], "7")
    );
    assert_eq!(needs("registers 3 ()"), figures([0, 0, 3, 3], "0"));
    // Each figure from the command that has more of it.
    let cond = "registers 1 (Cond (Boo true) (CSeq (Assign 0 (Num 1)) (Assign 0 (Num 2)))
        (Assign 0 (Sum (Num 1) (Num 2))))";
    assert_eq!(needs(cond), figures([4, 3, 1, 1], "10"));
}

/// A Loop leaves the steps open, also in a function that is never called.
#[test]
fn a_loop_leaves_the_steps_open() {
    let text = "registers 1 (Loop (Boo true) (Assign 0 (Num 1)))";
    assert_eq!(needs(text), figures([3, 2, 1, 1], "open"));
    let function = "(Abs (Blk (Bind 2 (Num 0)) (Loop (Boo true) (Assign 0 (Num 1)))))";
    let text = format!("registers 1 (Blk (Bind 1 {function}) (Assign 0 (Num 1)))");
    assert_eq!(needs(&text), figures([5, 4, 1, 2], "open"));
}

/// The call of the last of so many functions, each of which calls the one before it twice;
/// and behind it this command, if any.
fn doublings(functions: u32, behind: &str) -> String {
    let mut text = "registers 1\n".to_string();
    for function in 1..=functions {
        let command = match function {
            1 => "(Assign 0 (Num 1))".to_string(),
            _ => format!("(CSeq (Call {0}) (Call {0}))", function - 1),
        };
        text += &format!("(Blk (Bind {function} (Abs (Blk (Bind 62 (Num 0)) {command})))\n");
    }
    let call = match behind {
        "" => format!("(Call {functions})"),
        _ => format!("(CSeq (Call {functions}) {behind})"),
    };
    text + &call + &")".repeat(functions as usize)
}

/// A refusal is said as `find` says it: with its place in the text if it has one.
#[test]
fn refusals() {
    let text = "registers 1\n(CSeq (Assign 0 (Num 1))\n  (Assign 0 (Boo true)))\n";
    assert_eq!(needs(text), text_said(&["find", "-"], text.as_bytes()));
    assert_eq!(needs(text), "-:3:3: 11 type: the node takes another type\n");
    let file = stored("doublings.pi", doublings(20, "").as_bytes());
    let too_many = "40 too many steps: the steps come out above 1,000,000";
    assert_eq!(text_said(&["needs", &file], &[]), format!("{file}: {too_many}\n"));
    assert_eq!(needs(&doublings(20, "")), format!("-: {too_many}\n"));
    assert_eq!(needs(&doublings(1, "")), figures([7, 8, 1, 3], "18"));
}

/// Runs that are too many or too long are gone through in part. The figures say so, and
/// standard error says why.
#[test]
fn more_than_is_gone_through() {
    let text = doublings(40, "(Loop (Boo false) (Assign 0 (Num 1)))");
    let (output, error, status) = run(&["needs", "-"], text.as_bytes());
    let why = "standard input has more runs, or longer ones, than are gone through";
    let reached = "some reach what is printed";
    assert_eq!((error, status), (format!("image: {why}; {reached}\n"), 0));
    let output = String::from_utf8(output).unwrap();
    let lines: Vec<&str> = output.lines().collect();
    assert_eq!(lines.len(), 5);
    for (line, name) in lines.iter().zip(["control", "values", "cells", "bindings"]) {
        assert!(line.starts_with(&format!("{name} at least ")), "{output}");
    }
    assert_eq!(lines[4], "steps open");
}
