//! Where the binary writes: a reader that has gone, a standard output that is full,
//! and the line of progress, which only a terminal gets.

use compare::progress::{in_words, of_all};
use second::streams::{full, unread};
use std::ffi::{c_char, c_int};
use std::fs::{File, OpenOptions};
use std::io::Read;
use std::os::fd::{AsRawFd, FromRawFd};
use std::process::{Command, Output, Stdio};
use std::time::Duration;

fn compare(arguments: &[&str]) -> Command {
    let mut command = Command::new(env!("CARGO_BIN_EXE_compare"));
    command.args(arguments);
    command
}

/// The exit status, and what stands on standard error.
fn ended(output: Output) -> (Option<i32>, String) {
    (output.status.code(), String::from_utf8(output.stderr).expect("text"))
}

/// A comparison by a program that prints what it reads, so that there is a difference.
fn with_a_difference() -> Command {
    let mut command = compare(&["program", "5", "1", "small"]);
    command.env("PIRUN", "/bin/cat");
    command
}

#[test]
fn a_reader_that_has_gone_ends_the_output_quietly() {
    for arguments in [&["help"][..], &["check", "20", "1"], &["run", "5", "1"]] {
        let output = compare(arguments).stdout(unread()).output().expect("it starts");
        assert_eq!(ended(output), (Some(0), String::new()), "{arguments:?}");
    }
    let output = with_a_difference().stdout(unread()).output().expect("it starts");
    assert_eq!(ended(output), (Some(1), String::new()));
}

#[test]
fn an_output_that_cannot_be_written_is_told() {
    let message = "compare: standard output cannot be written: No space left on device";
    let commands = [compare(&["help"]), compare(&["check", "20", "1"]), with_a_difference()];
    for mut command in commands {
        let (status, error) = ended(command.stdout(full()).output().expect("it starts"));
        assert_eq!(status, Some(2), "{command:?}");
        assert!(error.starts_with(message) && error.lines().count() == 1, "{error}");
    }
}

/// Neither stream can be written: the status alone says so.
#[test]
fn an_error_that_cannot_be_written_changes_nothing() {
    for mut command in [compare(&["help"]), compare(&["nothing"])] {
        let status = command.stdout(full()).stderr(full()).status().expect("it starts");
        assert_eq!(status.code(), Some(2), "{command:?}");
    }
}

#[test]
fn progress_is_for_a_terminal() {
    let arguments = &["run", "2000", "1", "small"];
    let output = compare(arguments).output().expect("it starts");
    assert_eq!(ended(output), (Some(0), String::new()));

    let (mut terminal, errors) = new_terminal();
    let mut command = compare(arguments);
    let child = command.stdout(Stdio::piped()).stderr(errors).spawn().expect("it starts");
    // The command's own end of the terminal must be closed for its end to show.
    drop(command);
    let shown = all_shown(&mut terminal);
    let output = child.wait_with_output().expect("what it printed");
    assert_eq!(output.status.code(), Some(0));
    let printed = String::from_utf8(output.stdout).expect("text");
    assert!(printed.contains("run: 2000 images, ") && !printed.contains('\r'), "{printed}");

    // Each line takes the place of the one before, and blanks that of the last.
    let lines: Vec<&str> = shown.split('\r').collect();
    let [before, lines @ .., blanks, after] = lines.as_slice() else {
        panic!("nothing was shown: {shown:?}");
    };
    assert!(!lines.is_empty() && before.is_empty() && after.is_empty(), "{shown:?}");
    for line in lines {
        assert!(line.starts_with("run: ") && line.contains(" of 2000 images, "), "{line}");
        assert!(line.trim_end().ends_with(" s left"), "{line}");
    }
    let last = lines.last().map_or(0, |line| line.len());
    assert!(blanks.trim().is_empty() && (1..=last).contains(&blanks.len()), "{shown:?}");
    assert!(!shown.contains('\n'), "{shown:?}");
}

#[test]
fn times_are_told_in_words() {
    let told = |seconds| in_words(Duration::from_secs(seconds));
    assert_eq!([told(0), told(7), told(60)], ["0 s", "7 s", "1 min 0 s"]);
    assert_eq!([told(125), told(3_725)], ["2 min 5 s", "1 h 2 min"]);
    let line = of_all(30, 90, "images", Duration::from_secs(5));
    assert_eq!(line, "30 of 90 images, 5 s gone, 10 s left");
    let line = of_all(90, 90, "images", Duration::from_secs(70));
    assert_eq!(line, "90 of 90 images, 1 min 10 s gone, 0 s left");
}

extern "C" {
    fn posix_openpt(flags: c_int) -> c_int;
    fn grantpt(terminal: c_int) -> c_int;
    fn unlockpt(terminal: c_int) -> c_int;
    fn ptsname_r(terminal: c_int, name: *mut c_char, length: usize) -> c_int;
}

/// A terminal of its own: what is shown on it is read from the one end, and a command
/// takes the other for a terminal.
fn new_terminal() -> (File, Stdio) {
    // To read and write, and not to be this process's own terminal.
    const READ_AND_WRITE: c_int = 2;
    const NOT_CONTROLLING: c_int = 0o400;
    let mut name: [c_char; 64] = [0; 64];
    // The descriptor is new and is owned by the file alone; the name has its length.
    let terminal = unsafe {
        let terminal = posix_openpt(READ_AND_WRITE | NOT_CONTROLLING);
        assert!(terminal >= 0, "there is no new terminal");
        File::from_raw_fd(terminal)
    };
    let descriptor = terminal.as_raw_fd();
    let made = unsafe {
        grantpt(descriptor) == 0
            && unlockpt(descriptor) == 0
            && ptsname_r(descriptor, name.as_mut_ptr(), name.len()) == 0
    };
    assert!(made, "the new terminal has no other end");
    let bytes = name.iter().take_while(|byte| **byte != 0).map(|byte| *byte as u8).collect();
    let name = String::from_utf8(bytes).expect("text");
    let other = OpenOptions::new().read(true).write(true).open(name).expect("the other end");
    (terminal, other.into())
}

/// What is shown on a terminal until its other end is closed.
fn all_shown(terminal: &mut File) -> String {
    let mut shown = Vec::new();
    let mut bytes = [0; 4096];
    // A terminal whose other end is closed answers with an error.
    while let Ok(count @ 1..) = terminal.read(&mut bytes) {
        shown.extend(&bytes[..count]);
    }
    String::from_utf8(shown).expect("text")
}
