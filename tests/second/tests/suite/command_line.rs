//! The binary: its commands, and clear errors for bad usage.

use second::build::*;
use second::encode::{bytes_of, program_input};
use second::streams::full;
use second::tree::{Command, Name};
use std::ffi::OsStr;
use std::fs::File;
use std::io::Write;
use std::os::unix::ffi::OsStrExt;
use std::process::{Child, Stdio};

fn command(arguments: &[&str]) -> std::process::Command {
    let mut command = std::process::Command::new(env!("CARGO_BIN_EXE_second"));
    command.args(arguments);
    command.stdin(Stdio::piped()).stdout(Stdio::piped()).stderr(Stdio::piped());
    command
}

/// Standard output, standard error and the exit status.
fn ended(mut child: Child, input: &[u8]) -> (String, String, i32) {
    // A child that refuses its arguments may not read its input.
    let _ = child.stdin.take().unwrap().write_all(input);
    let output = child.wait_with_output().unwrap();
    let text = |bytes| String::from_utf8(bytes).unwrap();
    (text(output.stdout), text(output.stderr), output.status.code().unwrap())
}

fn second(arguments: &[&str], input: &[u8]) -> (String, String, i32) {
    ended(command(arguments).spawn().unwrap(), input)
}

fn said(arguments: &[&str], input: &[u8]) -> String {
    let (output, error, status) = second(arguments, input);
    assert!(status == 0 && error.is_empty(), "{error}");
    output
}

#[test]
fn program_and_run() {
    let input = program_input(&image(1, assign(0, num(7))), &[5]);
    assert_eq!(said(&["program"], &input), "none\nsteps 3\nmost 1 1 2 2\nregister 0 7\n");
    let cut_off = "refused 30 at 0\nsteps 2\nmost 1 1 2 2\nregister 0 5\n";
    assert_eq!(said(&["run", "2"], &input), cut_off);
    assert_eq!(said(&["run", "1000001"], &input), "refused 21 at 0\nsteps 0\nmost 0 0 0 0\n");
    assert_eq!(said(&["program", "--hex"], b"1 0 1 ff"), "number 255\nsteps 1\nmost 0 0 1 1\n");
    let slot = program_input(&image(1, absent()), &[5]);
    assert_eq!(said(&["program"], &slot), "none\nsteps 0\nmost 1 1 0 0\nregister 0 5\n");
    assert_eq!(said(&["run", "0"], &slot), "none\nsteps 0\nmost 1 1 0 0\nregister 0 5\n");
}

#[test]
fn check_says_code_command_or_refusal() {
    assert_eq!(said(&["check"], &bytes_of(&image(0, boo(true)))), "code 1\n");
    assert_eq!(said(&["check"], &bytes_of(&image(1, assign(0, num(1))))), "command\n");
    assert_eq!(said(&["check"], &bytes_of(&image(0, id(3)))), "refused 10 at 0\n");
    assert_eq!(said(&["check"], &[]), "refused 1 at 0\n");
    assert_eq!(said(&["check"], &bytes_of(&[0, 0])), "command\n");
    assert_eq!(said(&["check"], &bytes_of(&[0, 17])), "refused 2 at 0\n");
    let mut odd = bytes_of(&image(0, boo(true)));
    odd.push(0);
    assert_eq!(said(&["check"], &odd), "refused 1 at 0\n");
    assert_eq!(said(&["check"], &odd[..14]), "refused 1 at 0\n");
}

#[test]
fn needs_says_figures_or_refusal() {
    let set = bytes_of(&image(1, assign(0, num(1))));
    assert_eq!(said(&["needs"], &set), "control 2\nvalues 2\ncells 1\nbindings 1\nsteps 3\n");
    let rounds = bytes_of(&image(2, factorial()));
    let expected = "control 6\nvalues 3\ncells 2\nbindings 2\nsteps open\n";
    assert_eq!(said(&["needs"], &rounds), expected);
    let slot = "control 0\nvalues 0\ncells 3\nbindings 3\nsteps 0\n";
    assert_eq!(said(&["needs", "--hex"], b"0 3"), slot);
    assert_eq!(said(&["needs"], &bytes_of(&image(0, id(3)))), "refused 10 at 0\n");
    assert_eq!(said(&["needs"], &set[..set.len() - 1]), "refused 1 at 0\n");
    // Functions that call the one before them twice: too many steps; with a Loop too many
    // states.
    let doubling = |first: Command| {
        let once = |name: Name| call(name, vec![]);
        let function = |name: Name| {
            let twice = || cseq(once(name - 1), once(name - 1));
            let command = if name == 1 { first.clone() } else { twice() };
            bind_abs(name, &[], block(bind(63, num(0)), command))
        };
        let root = (1..=30).rev().fold(once(30), |command, name| blk(function(name), command));
        bytes_of(&image(1, root))
    };
    let set = || assign(0, num(1));
    assert_eq!(said(&["needs"], &doubling(set())), "refused 40 at 0\n");
    let text = said(&["needs"], &doubling(repeat(boo(true), set())));
    let lines: Vec<&str> = text.lines().collect();
    let [control, values, cells, bindings, "steps open"] = lines[..] else { panic!("{text}") };
    assert_eq!((cells, bindings), ("cells at least 1", "bindings at least 61"));
    assert!(control.starts_with("control at least ") && values.starts_with("values at least "));
}

#[test]
fn page_says_lines_or_refusal() {
    let set = bytes_of(&image(1, assign(0, num(10))));
    let lines = "   0  1 Assign          0    2\n   1  2 Num            10    2\n";
    assert_eq!(said(&["page"], &set), lines);
    assert_eq!(said(&["page", "--hex"], b"2 1 14 1 0 a"), lines);
    assert_eq!(said(&["page", "--hex"], b"0 3"), "");
    assert_eq!(said(&["page"], &bytes_of(&image(0, id(3)))), "refused 10 at 0\n");
    assert_eq!(said(&["page"], &bytes_of(&[2, 0, 15, 99, 0, 0])), "refused 3 at 1\n");
    assert_eq!(said(&["page"], &set[..set.len() - 1]), "refused 1 at 0\n");
}

#[test]
fn ranges_says_ends_or_refusal() {
    let double = bytes_of(&image(2, assign(1, mul(id(0), num(2)))));
    let ends = "register 0 20..40\nregister 1 40..80\n";
    assert_eq!(said(&["ranges", "20..40", "7"], &double), ends);
    assert_eq!(
        said(&["ranges", "-3..-1", "-7..7"], &double),
        "register 0 -3..-1\nregister 1 -6..-2\n"
    );
    assert_eq!(said(&["ranges", "5", "6", "--hex"], b"0 2"), "register 0 5..5\nregister 1 6..6\n");
    assert_eq!(said(&["ranges", "--hex"], b"0 0"), "");
    assert_eq!(said(&["ranges", "0..9223372036854775807", "7"], &double), "refused 44 at 1\n");
    assert_eq!(said(&["ranges", "1..0", "7"], &double), "refused 42 at 0\n");
    assert_eq!(said(&["ranges", "1..0"], &double), "refused 20 at 0\n");
    assert_eq!(said(&["ranges", "1"], &bytes_of(&image(0, id(3)))), "refused 10 at 0\n");
    let rounds = bytes_of(&image(2, factorial()));
    assert_eq!(said(&["ranges", "1", "2"], &rounds), "refused 43 at 0\n");
}

#[test]
fn show_prints_the_tree() {
    let body = block(bind_ref(3, id(2)), assign(0, id(3)));
    let root = blk(bind_abs(1, &[(2, 5)], body), call(1, vec![num(7)]));
    let expected = "registers 1
   0 Blk
   1   Bind 1
   2     Abs of 1 Formals
   3       Formal 2 of code 5
   4       Blk
   5         Bind 3
   6           Ref
   7             Id 2
   8         Assign 0
   9           Id 3
  10   Call 1 of 1 actuals
  11     Num 7
";
    assert_eq!(said(&["show"], &bytes_of(&image(1, root))), expected);
    assert_eq!(said(&["show"], &bytes_of(&[0, 2])), "registers 2\n   - no routine\n");
    assert_eq!(said(&["show"], &bytes_of(&[1, 0, 99, 0])), "refused 3 at 0\n");
}

#[test]
fn generate_prints_what_the_library_makes() {
    let lines = said(&["generate", "small", "4", "3"], &[]);
    let family = second::generate::Family::Small;
    let expected: String =
        (4..7).map(|seed| second::show::hexadecimal(&family.case(seed).image) + "\n").collect();
    assert_eq!(lines, expected);
    // Inputs are what the program reads.
    let case = family.case(4);
    let inputs = said(&["generate", "--inputs", "small", "4", "1"], &[]);
    let direct = program_input(&case.image, &case.registers);
    assert_eq!(
        said(&["program", "--hex"], inputs.as_bytes()).into_bytes(),
        second::program(&direct)
    );
    for (name, _) in second::generate::Family::ALL {
        assert_eq!(said(&["generate", name, "1", "2"], &[]).lines().count(), 2);
        assert!(said(&["help"], &[]).contains(name));
    }
}

#[test]
fn bad_usage_says_what_is_wrong() {
    let wrong = |arguments: &[&str], message: &str| {
        let (output, error, status) = second(arguments, b"zz");
        assert!(status == 2 && output.is_empty());
        assert!(error.contains(message), "{error}");
    };
    wrong(&[], "no command");
    wrong(&["walk"], "no command walk");
    wrong(&["run"], "wrong arguments for run");
    wrong(&["run", "many"], "BUDGET must be a whole number, not many");
    wrong(&["generate", "small"], "wrong arguments for generate");
    wrong(&["generate", "tiny", "1", "1"], "no family tiny");
    wrong(&["generate", "small", "x", "1"], "SEED must be a whole number, not x");
    wrong(&["check", "--octal"], "no option --octal");
    wrong(&["needs", "7"], "no option 7");
    wrong(&["page", "62"], "no option 62");
    wrong(&["ranges", "--octal"], "no option --octal");
    wrong(&["ranges", "1.."], "a range is LOWEST..HIGHEST or one integer, not 1..");
    wrong(&["ranges", "1", "few"], "a range is LOWEST..HIGHEST or one integer, not few");
    wrong(&["ranges", "1..2..3"], "a range is LOWEST..HIGHEST or one integer, not 1..2..3");
    wrong(&["ranges", "0..9223372036854775808"], "9223372036854775808 is out of range: an end is");
    wrong(&["check", "--hex"], "zz is no 32-bit word");
    wrong(&["walk", "--help"], "no command walk");
    let mut bytes = command(&["check"]);
    bytes.arg(OsStr::from_bytes(b"\xff"));
    let (_, error, status) = ended(bytes.spawn().unwrap(), &[]);
    assert_eq!((error.as_str(), status), ("second: the argument \"\\xFF\" is not UTF-8\n", 2));
}

/// The help is there for the tool and for each command of its list.
#[test]
fn help_is_everywhere() {
    let help = said(&["help"], &[]);
    assert!(help.starts_with("second: ") && help.contains("Exit status: 0 "));
    for arguments in [&["--help"], &["-h"]] {
        assert_eq!(said(arguments, &[]), help);
    }
    for command in ["program", "run", "check", "needs", "page", "ranges", "show", "generate"] {
        assert!(help.contains(&format!("\n  {command} ")), "{command}");
        assert_eq!(said(&["help", command], &[]), help);
        assert_eq!(said(&[command, "--help"], &[]), help);
        assert_eq!(said(&[command, "-h"], &[]), help);
    }
    assert_eq!(said(&["run", "5", "--help"], &[]), help);
}

/// A reader that closes early is served quietly; a stream that fails is told.
#[test]
fn streams_that_close_or_fail() {
    let input = program_input(&image(1, assign(0, num(7))), &[5]);
    let mut closed = command(&["program"]).spawn().unwrap();
    drop(closed.stdout.take());
    assert_eq!(ended(closed, &input), (String::new(), String::new(), 0));

    let fails =
        "second: standard output cannot be written: No space left on device (os error 28)\n"
            .to_string();
    let child = command(&["program"]).stdout(full()).spawn().unwrap();
    assert_eq!(ended(child, &input), (String::new(), fails, 2));

    // The message is lost, the exit status is not.
    let child = command(&["walk"]).stderr(full()).spawn().unwrap();
    assert_eq!(ended(child, &[]), (String::new(), String::new(), 2));

    let folder = File::open(env!("CARGO_MANIFEST_DIR")).unwrap();
    let output = command(&["check"]).stdin(folder).output().unwrap();
    let error = String::from_utf8(output.stderr).unwrap();
    assert_eq!(error, "second: standard input: Is a directory (os error 21)\n");
    assert_eq!(output.status.code(), Some(2));
}
