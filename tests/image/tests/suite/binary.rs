//! The binary run with arguments and an input, and routines for it.

use second::build::*;
use std::io::Write;
use std::path::PathBuf;
use std::process::{Child, Command, Stdio};

/// A text with one register.
pub const DOUBLE: &str = "registers 1
(Blk (Bind 1 (Ref (Id 0))) (Assign 0 (Sum (Id 1) (Id 1))))
";

/// Its image.
pub fn double() -> Vec<u32> {
    image(1, blk(bind_ref(1, id(0)), assign(0, sum(id(1), id(1)))))
}

pub fn command(arguments: &[&str]) -> Command {
    let mut command = Command::new(env!("CARGO_BIN_EXE_image"));
    command.args(arguments);
    command.stdin(Stdio::piped()).stdout(Stdio::piped()).stderr(Stdio::piped());
    command
}

/// Standard output, standard error and the exit status.
pub fn ended(mut child: Child, input: &[u8]) -> (Vec<u8>, String, i32) {
    // A child that refuses its arguments may not read its input.
    let _ = child.stdin.take().unwrap().write_all(input);
    let output = child.wait_with_output().unwrap();
    (output.stdout, String::from_utf8(output.stderr).unwrap(), output.status.code().unwrap())
}

pub fn run(arguments: &[&str], input: &[u8]) -> (Vec<u8>, String, i32) {
    ended(command(arguments).spawn().unwrap(), input)
}

/// The output of a command line that is done with nothing to say beside it.
pub fn said(arguments: &[&str], input: &[u8]) -> Vec<u8> {
    let (output, error, status) = run(arguments, input);
    assert!(status == 0 && error.is_empty(), "{error}");
    output
}

/// The same as a text.
pub fn text_said(arguments: &[&str], input: &[u8]) -> String {
    String::from_utf8(said(arguments, input)).unwrap()
}

/// The command line is refused with this message.
pub fn wrong(arguments: &[&str], input: &[u8], message: &str) {
    let (output, error, status) = run(arguments, input);
    assert_eq!((error, status), (format!("image: {message}\n"), 2));
    assert!(output.is_empty());
}

/// A file of the suite with this content, and its name.
pub fn stored(name: &str, content: &[u8]) -> String {
    let path = PathBuf::from(env!("CARGO_TARGET_TMPDIR")).join(name);
    std::fs::write(&path, content).unwrap();
    path.into_os_string().into_string().unwrap()
}
