//! The commands and the help, and clear errors for bad usage.

use crate::binary::*;
use second::encode::{bytes_of, program_input};
use std::ffi::OsStr;
use std::os::unix::ffi::OsStrExt;

#[test]
fn make_show_text_and_find() {
    let input = said(&["make", "-", "-5"], DOUBLE.as_bytes());
    assert_eq!(input, program_input(&double(), &[-5]));
    let shown = text_said(&["show", "-"], &input);
    assert!(shown.starts_with("nodes 8, registers 1\nregister 0 starts at -5\n   0 Blk\n"));
    assert!(shown.ends_with("command\n"));
    assert_eq!(said(&["text", "-"], &input), DOUBLE.as_bytes());
    assert_eq!(said(&["text", "-"], &bytes_of(&double())), DOUBLE.as_bytes());
    assert_eq!(said(&["find", "-", "0"], DOUBLE.as_bytes()), b"-:2:1\n");
    assert_eq!(said(&["find", "-", "4"], DOUBLE.as_bytes()), b"-:2:28\n");
}

/// A slot with no routine goes through every command.
#[test]
fn no_routine() {
    let text = "registers 2\n()\n";
    let input = said(&["make", "-", "-5", "6"], text.as_bytes());
    assert_eq!(input, program_input(&[0, 2], &[-5, 6]));
    assert_eq!(
        text_said(&["show", "-"], &input),
        "nodes 0, registers 2
register 0 starts at -5
register 1 starts at 6
   - no routine
command
"
    );
    assert_eq!(text_said(&["text", "-"], &input), text);
    assert_eq!(text_said(&["text", "-"], &bytes_of(&[0, 2])), text);
    assert_eq!(said(&["make", "-"], b"registers 0 ()"), bytes_of(&[0, 0]));
    assert_eq!(text_said(&["find", "-"], text.as_bytes()), "-: passes as a command (no routine)\n");
    let needs = "control 0\nvalues 0\ncells 2\nbindings 2\nsteps 0\n";
    assert_eq!(text_said(&["needs", "-"], text.as_bytes()), needs);
    assert_eq!(text_said(&["page", "-"], text.as_bytes()), "");
    let ends = "register 0 -5..5\nregister 1 6..6\n";
    assert_eq!(text_said(&["ranges", "-", "-5..5", "6"], text.as_bytes()), ends);
    let ran = "none\nsteps 0\nmost 2 2 0 0\nregister 0 -5\nregister 1 6\n";
    assert_eq!(text_said(&["run", "-", "-5", "6"], text.as_bytes()), ran);
    let no_node = |number: &str| {
        let message = format!("standard input has no routine, so it has no node {number}");
        wrong(&["find", "-", number], text.as_bytes(), &message);
    };
    no_node("0");
    no_node("x");
    let hint = "where there is no routine, write `()`";
    let ends = "an expression or a command must stand here, not the end of the text";
    wrong(&["make", "-"], b"registers 2\n", &format!("-:2:1: {ends}; {hint}"));
    let length = "1 length: the length does not fit the counts";
    let shows = "`image show -` shows what there is";
    let behind = bytes_of(&[0, 2, 1]);
    wrong(&["text", "-"], &behind, &format!("-: refused 1 at 0 ({length}); {shows}"));
    let counts = "2 counts: n is above 2,000, or r is above 16";
    let many = bytes_of(&[0, 17]);
    wrong(&["text", "-"], &many, &format!("-: refused 2 at 0 ({counts}); {shows}"));
}

/// An image without its starting values is shown like any other.
#[test]
fn show_needs_no_starting_values() {
    let shown = text_said(&["show", "-"], &bytes_of(&double()));
    assert!(shown.starts_with("nodes 8, registers 1\n   0 Blk\n"), "{shown}");
    assert!(shown.ends_with("command\n"), "{shown}");
}

#[test]
fn find_says_where_a_routine_is_refused() {
    let file = stored(
        "refused.pi",
        b"; a truth in a register\nregisters 1\n(CSeq (Assign 0 (Num 1))\n  (Assign 0 (Boo true)))\n",
    );
    assert_eq!(
        text_said(&["find", &file], &[]),
        format!("{file}:4:3: 11 type: the node takes another type\n")
    );
    assert_eq!(text_said(&["find", &file, "3"], &[]), format!("{file}:4:3\n"));

    let said = |text: &str| text_said(&["find", "-"], text.as_bytes());
    assert_eq!(said("registers 0\n(Id 5)"), "-:2:1: 10 unbound: the name has no binding\n");
    assert_eq!(said(DOUBLE), "-: passes as a command\n");
    // In the command of a Cond that would not be taken.
    let choice = "registers 1\n(Cond (Boo true)\n  (Assign 0 (Num 1))\n  (Assign 1 (Num 2)))";
    assert_eq!(said(choice), "-:4:3: 10 unbound: the name has no binding\n");
    assert_eq!(said("registers 0 (Num 1)"), "-: passes with type code 0 (an integer)\n");
    assert_eq!(said("registers 0 (Boo true)"), "-: passes with type code 1 (a truth)\n");
    assert_eq!(
        said("registers 1 (DeRef 0)"),
        "-: passes with type code 2 (the location of a cell that holds an integer)\n"
    );
}

#[test]
fn codes_in_words() {
    use image::codes::in_words;
    assert_eq!(in_words(3), "the location of a cell that holds a truth");
    let inner = in_words(4);
    assert_eq!(in_words(6), format!("the location of a cell that holds {inner}"));
}

#[test]
fn refusals_prints_the_table() {
    let lines = text_said(&["refusals"], &[]);
    let first = "1 length: the length does not fit the counts\n";
    assert!(lines.starts_with(&format!("{first}2 counts: n is above 2,000, or r is above 16\n")));
    assert!(lines.contains("\n13 not assignable: the name cannot be set\n"));
    assert!(lines.contains("\n36 control: a 513th entry would be on the control stack\n"));
    assert!(lines.contains("\n40 too many steps: the steps come out above 1,000,000\n"));
    let last = "an end leaves the integers, or the divisor's range holds 0";
    assert!(lines.ends_with(&format!("\n44 unsafe arithmetic: {last}\n")));
    assert_eq!(lines.lines().count(), second::refusal::TABLE.len());
}

/// The help is there for the tool and for each command of its list.
#[test]
fn help_is_everywhere() {
    let help = text_said(&["help"], &[]);
    assert!(help.starts_with("image: ") && help.contains("Exit status: 0 "));
    assert!(help.contains("`image refusals`"));
    for arguments in [&["--help"], &["-h"]] {
        assert_eq!(text_said(arguments, &[]), help);
    }
    for command in ["make", "show", "text", "find", "run", "needs", "page", "ranges", "refusals"] {
        assert!(help.contains(&format!("\n  {command} ")), "{command}");
        assert_eq!(text_said(&["help", command], &[]), help);
        assert_eq!(text_said(&[command, "--help"], &[]), help);
        assert_eq!(text_said(&[command, "-h"], &[]), help);
    }
    assert_eq!(text_said(&["make", "routine.pi", "--help"], &[]), help);
    assert_eq!(text_said(&["run", "routine.pi", "5", "--help"], &[]), help);
}

/// The text in the help is one that make takes.
#[test]
fn help_has_a_text() {
    let help = text_said(&["help"], &[]);
    let text = &help[help.find("  registers 1").unwrap()..];
    let text = text.split_once("\n\n").unwrap().0;
    assert_eq!(said(&["make", "-", "3"], text.as_bytes()), program_input(&double(), &[3]));
}

#[test]
fn bad_usage_says_what_is_wrong() {
    wrong(&[], b"", "no command; `image help` lists them");
    wrong(&["walk"], b"", "no command walk; `image help` lists them");
    wrong(&["walk", "--help"], b"", "no command walk; `image help` lists them");
    for command in ["make", "show", "text", "find", "run", "needs", "page", "ranges"] {
        wrong(&[command], b"", &format!("wrong arguments for {command}; see `image help`"));
    }
    wrong(&["needs", "-", "8192"], b"", "wrong arguments for needs; see `image help`");
    wrong(&["page", "-", "62"], b"", "wrong arguments for page; see `image help`");
    wrong(&["refusals", "-"], b"", "wrong arguments for refusals; see `image help`");
    for command in ["make", "find", "run", "needs", "page", "ranges"] {
        let no_expression = "-:2:6: an expression must stand here, not `5`";
        wrong(&[command, "-"], b"registers 0\n(Not 5)", no_expression);
    }
    wrong(&["find", "-", "8"], DOUBLE.as_bytes(), "standard input has nodes 0 to 7, not 8");
    wrong(&["find", "-", "x"], DOUBLE.as_bytes(), "standard input has nodes 0 to 7, not x");
    wrong(&["find", "-", "1"], b"registers 0 (Num 1)", "standard input has node 0 alone, not 1");
    let shows = "`image show -` shows what there is";
    let length = "1 length: the length does not fit the counts";
    wrong(&["text", "-"], b"", &format!("-: refused 1 at 0 ({length}); {shows}"));
    let kind = "3 kind: no such kind of node";
    let damaged = bytes_of(&[2, 0, 15, 99, 0, 0]);
    wrong(&["text", "-"], &damaged, &format!("-: refused 3 at 1 ({kind}); {shows}"));
    let mut bytes = command(&["show"]);
    bytes.arg(OsStr::from_bytes(b"\xff"));
    let (_, error, status) = ended(bytes.spawn().unwrap(), &[]);
    assert_eq!((error.as_str(), status), ("image: the argument \"\\xFF\" is not UTF-8\n", 2));
}
