//! The binary: its commands, and clear errors for bad usage; what it writes where is
//! in `streams`.

mod streams;

use std::ffi::OsStr;
use std::os::unix::ffi::OsStrExt;
use std::process::Command;

/// Standard output, standard error and the exit status.
fn compare(arguments: &[&str]) -> (String, String, Option<i32>) {
    let output =
        Command::new(env!("CARGO_BIN_EXE_compare")).args(arguments).output().expect("it starts");
    let text = |bytes| String::from_utf8(bytes).expect("text");
    (text(output.stdout), text(output.stderr), output.status.code())
}

#[test]
fn check_counts_what_it_compared() {
    let (output, _, status) = compare(&["check", "300", "9"]);
    assert_eq!(status, Some(0), "{output}");
    assert!(output.contains("check: 300 images, "), "{output}");
    assert!(output.contains(" calls, no difference"), "{output}");
    assert!(output.contains("  command\n"), "{output}");
}

#[test]
fn run_counts_what_it_compared() {
    let (output, _, status) = compare(&["run", "100", "9"]);
    assert_eq!(status, Some(0), "{output}");
    assert!(output.contains("run: 100 images, "), "{output}");
    assert!(output.contains(" calls, no difference"), "{output}");
    assert!(output.contains("  none\n") && output.contains("  refused 30\n"), "{output}");
}

#[test]
fn needs_counts_what_it_compared() {
    let (output, _, status) = compare(&["needs", "300", "9"]);
    assert_eq!(status, Some(0), "{output}");
    assert!(output.contains("needs: 300 images, "), "{output}");
    assert!(output.contains(" calls, no difference"), "{output}");
    for words in ["  figures\n", "  figures, steps open\n", "  refused 10\n"] {
        assert!(output.contains(words), "{output}");
    }
}

#[test]
fn page_counts_what_it_compared() {
    let (output, _, status) = compare(&["page", "300", "9"]);
    assert_eq!(status, Some(0), "{output}");
    assert!(output.contains("page: 300 images, "), "{output}");
    assert!(output.contains(" calls, no difference"), "{output}");
    for words in ["  page\n", "  refused 10\n", "  refused 41\n"] {
        assert!(output.contains(words), "{output}");
    }
}

#[test]
fn ranges_counts_what_it_compared() {
    let (output, _, status) = compare(&["ranges", "300", "9"]);
    assert_eq!(status, Some(0), "{output}");
    assert!(output.contains("ranges: 300 images, "), "{output}");
    assert!(output.contains(" calls, no difference"), "{output}");
    for words in ["  ends\n", "  run within the limits\n", "  refused 43\n", "  refused 44\n"] {
        assert!(output.contains(words), "{output}");
    }
}

#[test]
fn bytes_counts_what_it_compared() {
    let (output, _, status) = compare(&["bytes", "100", "9"]);
    assert_eq!(status, Some(0), "{output}");
    assert!(output.contains("bytes: 100 images, "), "{output}");
    assert!(output.contains(" calls, no difference"), "{output}");
    assert!(
        output.contains("  check: refused 1\n") && output.contains("  run: none\n"),
        "{output}"
    );
}

#[test]
fn program_counts_what_it_compared() {
    let (output, _, status) = compare(&["program", "100", "9"]);
    assert_eq!(status, Some(0), "{output}");
    assert!(output.contains("program: 100 images, "), "{output}");
    assert!(output.contains(" calls, no difference"), "{output}");
    assert!(output.contains("  none\n") && output.contains("  refused 1\n"), "{output}");
}

/// A program that is not there, and one that prints something else.
#[test]
fn another_program_is_named_by_pirun() {
    let with_program = |path: &str, arguments: &[&str]| {
        let mut command = Command::new(env!("CARGO_BIN_EXE_compare"));
        let output = command.args(arguments).env("PIRUN", path).output().expect("it starts");
        let text = |bytes| String::from_utf8(bytes).expect("text");
        (text(output.stdout), text(output.stderr), output.status.code())
    };
    let (output, error, status) = with_program("/no/program", &["program", "1", "1"]);
    assert_eq!((status, output.as_str()), (Some(2), ""));
    assert_eq!(error, "compare: there is no program /no/program: see PIRUN\n");
    let (output, _, status) = with_program("/bin/cat", &["program", "5", "1", "small"]);
    assert_eq!(status, Some(1), "{output}");
    assert!(output.starts_with("program on "), "{output}");
    assert!(output.contains("\nthe image as a tree:\nregisters "), "{output}");
    assert!(output.ends_with("this case alone:\ncompare program 1 1 small\n"), "{output}");
    let (output, _, status) = with_program("/no/program", &["check", "1", "1"]);
    assert_eq!(status, Some(0), "{output}");
}

#[test]
fn each_command_takes_each_family() {
    for (family, _) in second::generate::Family::ALL {
        for command in ["check", "run", "needs", "page", "ranges", "bytes", "program"] {
            let (output, _, status) = compare(&[command, "3", "18446744073709551614", family]);
            assert_eq!(status, Some(0), "{output}");
            assert!(output.contains(&format!("{command}: 3 images, ")), "{output}");
        }
        assert!(compare(&["help"]).0.contains(family));
    }
}

#[test]
fn help_goes_to_standard_output() {
    let mut asked: Vec<Vec<&str>> = vec![vec!["help"], vec!["--help"], vec!["-h"]];
    for command in ["check", "run", "needs", "page", "ranges", "bytes", "program", "help"] {
        asked.extend([vec![command, "--help"], vec![command, "-h"], vec!["help", command]]);
        asked.push(vec![command, "100000", "1", "--help"]);
    }
    for arguments in asked {
        let (output, error, status) = compare(&arguments);
        assert_eq!((status, error.as_str()), (Some(0), ""), "{arguments:?}");
        for command in ["check", "run", "needs", "page", "ranges", "bytes", "program"] {
            assert!(output.contains(&format!("  {command} COUNT SEED")), "{arguments:?}");
        }
        assert!(
            output.contains("In a release build a second is enough for about "),
            "{arguments:?}"
        );
    }
}

#[test]
fn bad_usage_says_what_is_wrong() {
    let cases: [(&[&str], &str); 14] = [
        (&[], "no command"),
        (&["compare"], "no command compare"),
        (&["check"], "check takes COUNT, SEED"),
        (&["check", "1"], "check takes COUNT, SEED"),
        (&["run", "1"], "run takes COUNT, SEED"),
        (&["needs", "1"], "needs takes COUNT, SEED"),
        (&["page", "1"], "page takes COUNT, SEED"),
        (&["ranges", "1"], "ranges takes COUNT, SEED"),
        (&["bytes", "1"], "bytes takes COUNT, SEED"),
        (&["program", "1"], "program takes COUNT, SEED"),
        (&["check", "1", "2", "small", "4"], "check takes COUNT, SEED"),
        (&["check", "many", "2"], "COUNT must be a whole number, not many"),
        (&["check", "1", "-2"], "SEED must be a whole number, not -2"),
        (&["check", "1", "2", "tiny"], "no family tiny"),
    ];
    for (arguments, message) in cases {
        let (output, error, status) = compare(arguments);
        assert_eq!(status, Some(2), "{arguments:?}");
        assert!(output.is_empty() && error.contains(message), "{arguments:?}: {error}");
    }
}

/// An argument of bytes that are no text.
#[test]
fn an_argument_that_is_no_text_is_refused() {
    let mut command = Command::new(env!("CARGO_BIN_EXE_compare"));
    let output = command.arg(OsStr::from_bytes(b"\xff")).output().expect("it starts");
    assert_eq!(output.status.code(), Some(2));
    let errors = String::from_utf8(output.stderr).expect("text");
    assert_eq!(errors, "compare: the argument \"\\xFF\" is not UTF-8\n");
    assert!(output.stdout.is_empty());
}
