//! The binary's command line: its help, bad usage, and where its output goes. Nothing
//! here measures: each run ends before its first row.

use second::streams::{full, unread};
use std::ffi::OsStr;
use std::os::unix::ffi::OsStrExt;
use std::process::{Command, Stdio};

/// Standard output, standard error and the exit status.
fn bench<A: AsRef<OsStr>>(arguments: &[A], output: Stdio) -> (String, String, Option<i32>) {
    let mut command = Command::new(env!("CARGO_BIN_EXE_bench"));
    let ended = command.args(arguments).stdout(output).output().expect("it starts");
    let text = |bytes| String::from_utf8(bytes).expect("text");
    (text(ended.stdout), text(ended.stderr), ended.status.code())
}

#[test]
fn help_says_what_is_printed_and_how_long_it_takes() {
    for arguments in [&["--help"][..], &["-h"], &["help"], &["fast", "--help"]] {
        let (output, error, status) = bench(arguments, Stdio::piped());
        assert_eq!((status, error.as_str()), (Some(0), ""), "{arguments:?}");
        for part in ["usage: bench", "nanoseconds a step", "seconds in a release build"] {
            assert!(output.contains(part), "{output}");
        }
    }
}

#[test]
fn other_arguments_are_refused() {
    for arguments in [&["fast"][..], &["--fast"], &[""], &["1", "2"]] {
        let (output, error, status) = bench(arguments, Stdio::piped());
        assert_eq!((status, output.as_str()), (Some(2), ""), "{arguments:?}");
        let message = format!("bench: no argument {}; see `bench --help`\n", arguments[0]);
        assert_eq!(error, message);
    }
    // Bytes that are no text.
    let (_, error, status) = bench(&[OsStr::from_bytes(b"\xff")], Stdio::piped());
    assert_eq!((status, error.as_str()), (Some(2), "bench: the argument \"\\xFF\" is not UTF-8\n"));
}

#[test]
fn a_reader_that_has_gone_ends_it_quietly() {
    for arguments in [&[] as &[&str], &["--help"]] {
        let (_, error, status) = bench(arguments, unread().into());
        assert_eq!((status, error.as_str()), (Some(0), ""), "{arguments:?}");
    }
}

#[test]
fn an_output_that_cannot_be_written_is_told() {
    for arguments in [&[] as &[&str], &["--help"]] {
        let (_, error, status) = bench(arguments, full().into());
        assert_eq!(status, Some(2), "{arguments:?}");
        assert!(error.starts_with("bench: standard output cannot be written: "), "{error}");
    }
}
