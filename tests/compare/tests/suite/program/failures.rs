//! Streams that fail: what is said on standard error, and that no answer looks
//! whole that is not. A call that a signal interrupts is taken up again, and so is
//! one that moves a part.

use crate::helpers::*;
use compare::program::Printed;
use second::build::*;
use second::encode::program_input;
use second::streams::unread;
use std::os::unix::process::ExitStatusExt;
use std::path::PathBuf;
use std::process::{Command, Stdio};
use std::sync::OnceLock;

/// errno's numbers.
const INTERRUPTED: i32 = 4;
const INPUT_OUTPUT_ERROR: i32 = 5;
const AGAIN: i32 = 11;
const NO_SPACE: i32 = 28;

/// The interruptions of one stream that are borne.
const MOST_INTERRUPTIONS: u32 = 1_000_000;

const UNREAD: &str = "pirun: no answer, since standard input could not be read: ";
const UNWRITTEN: &str = "pirun: the answer could not be written whole: ";

fn input() -> Vec<u8> {
    program_input(&image(2, factorial()), &[1, 20])
}

const ANSWER: &str =
    "none\nsteps 428\nmost 2 2 3 6\nregister 0 2432902008176640000\nregister 1 0\n";

/// The program by way of a shell, which can close its streams and turn them elsewhere.
fn by_shell(redirected: &str) -> Printed {
    let script = format!("exec \"$0\" {redirected}");
    let output = Command::new("/bin/sh")
        .args(["-c", &script])
        .arg(the_program().path())
        .stdin(Stdio::null())
        .output()
        .expect("a shell starts");
    Printed { output: output.stdout, errors: output.stderr, status: output.status.code() }
}

/// The program with calls of read and write that answer as these lists say.
fn with_answers(reads: &str, writes: &str, input: &[u8]) -> Printed {
    let library = preloaded().to_str().expect("a path in UTF-8");
    the_program()
        .with_variables(&[("LD_PRELOAD", library), ("READS", reads), ("WRITES", writes)])
        .run(input)
}

/// The library that is loaded before the C library, built once.
fn preloaded() -> &'static PathBuf {
    static BUILT: OnceLock<PathBuf> = OnceLock::new();
    BUILT.get_or_init(|| {
        let library = PathBuf::from(env!("CARGO_TARGET_TMPDIR")).join("streams.so");
        let source = PathBuf::from(env!("CARGO_MANIFEST_DIR")).join("preload/streams.c");
        let built = Command::new("gcc")
            .args(["-std=c99", "-O2", "-Wall", "-Wextra", "-Werror", "-shared", "-fPIC", "-o"])
            .args([&library, &source])
            .status()
            .expect("gcc starts");
        assert!(built.success());
        library
    })
}

fn said(errors: &str) -> Printed {
    cut("", errors)
}

/// This much of an answer, and this on standard error.
fn cut(output: &str, errors: &str) -> Printed {
    Printed { output: output.into(), errors: errors.into(), status: Some(0) }
}

fn whole() -> Printed {
    cut(ANSWER, "")
}

#[test]
fn a_full_device_is_said() {
    let expected = said(&format!("{UNWRITTEN}No space left on device\n"));
    assert_eq!(by_shell(">/dev/full"), expected);
    assert_eq!(with_answers("", &format!("1x-{NO_SPACE}"), &input()), expected);
}

/// The bytes that fit are there; what is said is why the others are not.
#[test]
fn a_device_that_fills_up_is_said() {
    for fit in [1, 5, 11, 14, ANSWER.len() - 1] {
        let writes = format!("1x{fit},1x-{NO_SPACE}");
        let expected = cut(&ANSWER[..fit], &format!("{UNWRITTEN}No space left on device\n"));
        assert_eq!(with_answers("", &writes, &input()), expected);
    }
    let stopped = format!("{UNWRITTEN}standard output takes no more\n");
    assert_eq!(with_answers("", "1x11,1x0", &input()), cut(&ANSWER[..11], &stopped));
    assert_eq!(with_answers("", "1x0", &input()), said(&stopped));
}

/// A pipe that nobody reads: the program ignores the signal that would end it, and says
/// what is wrong, as where whoever starts it has the signal ignored.
#[test]
fn a_pipe_that_nobody_reads() {
    let printed = |script: &str| {
        let output = Command::new("/bin/sh")
            .args(["-c", script])
            .arg(the_program().path())
            .stdin(Stdio::null())
            .stdout(unread())
            .output()
            .expect("a shell starts");
        (String::from_utf8(output.stderr).expect("text"), output.status.signal())
    };
    // A program made by today's toolchain ignores the signal, whoever starts it.
    let said = format!("{UNWRITTEN}Broken pipe\n");
    assert_eq!(printed("exec \"$0\""), (said.clone(), None));
    assert_eq!(printed("trap '' PIPE; exec \"$0\""), (said, None));
}

/// A file that may not grow: the system itself writes a part, and then fails.
#[test]
fn a_file_at_its_greatest_size_is_said() {
    let file = PathBuf::from(env!("CARGO_TARGET_TMPDIR")).join("greatest_size");
    std::fs::write(&file, vec![b'.'; 1_013]).expect("a file");
    // 1,024 bytes are allowed, and the signal that would end the program is ignored.
    let script = "trap '' XFSZ; ulimit -f 1; exec \"$0\" <\"$1\" >>\"$2\"";
    let routine = PathBuf::from(env!("CARGO_TARGET_TMPDIR")).join("greatest_size.in");
    std::fs::write(&routine, input()).expect("a file");
    let output = Command::new("bash")
        .args(["-c", script])
        .arg(the_program().path())
        .args([&routine, &file])
        .output()
        .expect("a shell starts");
    let errors = String::from_utf8(output.stderr).expect("text");
    assert_eq!(errors, format!("{UNWRITTEN}File too large\n"));
    let left = std::fs::read(&file).expect("the file");
    assert_eq!(&left[1_013..], &ANSWER.as_bytes()[..11]);
}

#[test]
fn closed_streams_are_said() {
    assert_eq!(by_shell("<&-"), said(&format!("{UNREAD}Bad file descriptor\n")));
    assert_eq!(by_shell(">&-"), said(&format!("{UNWRITTEN}Bad file descriptor\n")));
    // With nowhere to say it either, the program ends all the same.
    assert_eq!(by_shell("<&- 2>&-"), said(""));
    assert_eq!(by_shell(">&- 2>&-"), said(""));
}

#[test]
fn an_input_that_cannot_be_read_has_no_answer() {
    assert_eq!(by_shell("</"), said(&format!("{UNREAD}Is a directory\n")));
    let fails = |reads: &str, text: &str| {
        assert_eq!(with_answers(reads, "", &input()), said(&format!("{UNREAD}{text}\n")));
    };
    fails(&format!("1x-{INPUT_OUTPUT_ERROR}"), "Input/output error");
    fails(&format!("1x-{AGAIN}"), "Resource temporarily unavailable");
    // Midway, at each place where the bytes so far would have had an answer.
    for read in [1, 7, 8, 50, input().len() - 1, input().len()] {
        fails(&format!("1x{read},1x-{INPUT_OUTPUT_ERROR}"), "Input/output error");
    }
    fails(&format!("3x9,2x-{INTERRUPTED},1x-{INPUT_OUTPUT_ERROR}"), "Input/output error");
}

/// An input that ends is no failure, whatever it lacks.
#[test]
fn an_input_that_ends_is_answered() {
    let refused = cut("refused 1 at 0\nsteps 0\nmost 0 0 0 0\n", "");
    assert_eq!(by_shell("</dev/null"), refused);
    assert_eq!(with_answers("1x7,1x0", "", &input()), refused);
}

#[test]
fn parts_are_put_together() {
    for (reads, writes) in
        [("1000x1", ""), ("", "1000x1"), ("1x8,2x3,1x1", "1x14,1x1,1x2"), ("200x7", "200x7")]
    {
        assert_eq!(with_answers(reads, writes, &input()), whole(), "{reads} and {writes}");
    }
}

#[test]
fn interrupted_calls_are_taken_up_again() {
    let once = format!("1x-{INTERRUPTED}");
    let between = format!("1x5,3x-{INTERRUPTED},1x9,1x-{INTERRUPTED},1x1,2x-{INTERRUPTED}");
    let often = format!("{MOST_INTERRUPTIONS}x-{INTERRUPTED}");
    for list in [&once, &between, &often] {
        assert_eq!(with_answers(list, "", &input()), whole(), "reads {list}");
        assert_eq!(with_answers("", list, &input()), whole(), "writes {list}");
    }
    assert_eq!(with_answers(&between, &between, &input()), whole());
}

/// One interruption more than are borne ends the program, so that every run ends.
#[test]
fn endless_interruptions_are_a_failure() {
    let list = format!("{}x-{INTERRUPTED}", MOST_INTERRUPTIONS + 1);
    let text = "Interrupted system call\n";
    assert_eq!(with_answers(&list, "", &input()), said(&format!("{UNREAD}{text}")));
    assert_eq!(with_answers("", &list, &input()), said(&format!("{UNWRITTEN}{text}")));
    let midway = format!("1x9,{list}");
    assert_eq!(
        with_answers("", &midway, &input()),
        cut(&ANSWER[..9], &format!("{UNWRITTEN}{text}"))
    );
}

/// Whoever gives an argument is told what the program does, and gets no answer.
#[test]
fn an_argument_is_answered_with_the_help() {
    for arguments in ["--help", "-h", "routine.image", "'' ''"] {
        let printed = by_shell(arguments);
        let errors = String::from_utf8(printed.errors).expect("text");
        assert!(errors.starts_with("pirun: runs a routine"), "{errors}");
        assert!(errors.contains("\nusage: pirun <INPUT >ANSWER\n"), "{errors}");
        assert_eq!((printed.output, printed.status), (Vec::new(), Some(0)));
    }
}
