//! One run of the program, held against the second interpreter: all of standard
//! output, nothing on standard error, and exit status 0.

use crate::difference::Difference;
use crate::inputs::split_image;
use second::bytes::{integers, words};
use std::env;
use std::io::{ErrorKind, Write};
use std::path::{Path, PathBuf};
use std::process::{Child, ChildStdin, Command, Stdio};
use std::thread::sleep;
use std::time::{Duration, Instant};

/// A program that has not ended after so long is stopped.
const LONGEST: Duration = Duration::from_secs(60);
/// How often it is asked whether it has ended.
const ASKED: Duration = Duration::from_micros(200);

/// The program's file, and variables of its environment beside the inherited ones.
#[derive(Clone, Debug)]
pub struct Program {
    path: PathBuf,
    variables: Vec<(String, String)>,
}

/// What a run of the program left.
#[derive(Clone, Debug, PartialEq, Eq)]
pub struct Printed {
    pub output: Vec<u8>,
    pub errors: Vec<u8>,
    /// The exit status; none if the program was stopped.
    pub status: Option<i32>,
}

/// What becomes of standard input when all is written.
#[derive(Clone, Copy, Debug, PartialEq, Eq)]
pub enum End {
    Closed,
    /// It stays open until the program has ended.
    Open,
}

impl Program {
    /// The program that PIRUN names, or the one that `tools/build.sh` writes; or
    /// what to do if it is not there. A relative path starts at this crate's folder.
    pub fn found() -> Result<Program, String> {
        let folder = PathBuf::from(env!("CARGO_MANIFEST_DIR"));
        let (path, advice) = match env::var_os("PIRUN") {
            Some(named) => (folder.join(named), "see PIRUN"),
            None => (
                folder.join("../../target/bin/pirun"),
                "run `tools/build.sh` first, or name another program in PIRUN",
            ),
        };
        match path.is_file() {
            true => Ok(Program { path, variables: Vec::new() }),
            false => Err(format!("there is no program {}: {advice}", path.display())),
        }
    }

    pub fn path(&self) -> &Path {
        &self.path
    }

    /// The program with these variables in its environment.
    pub fn with_variables(mut self, variables: &[(&str, &str)]) -> Program {
        let owned = |(name, value): &(&str, &str)| (name.to_string(), value.to_string());
        self.variables.extend(variables.iter().map(owned));
        self
    }

    /// What it prints for this input.
    pub fn run(&self, input: &[u8]) -> Printed {
        self.feed([input], End::Closed).0
    }

    /// What it prints for an input that comes in pieces, and how many bytes were
    /// written until it read no further.
    pub fn feed<P: AsRef<[u8]>>(
        &self,
        pieces: impl IntoIterator<Item = P>,
        end: End,
    ) -> (Printed, usize) {
        let mut child = Command::new(&self.path)
            .envs(self.variables.iter().map(|(name, value)| (name, value)))
            .stdin(Stdio::piped())
            .stdout(Stdio::piped())
            .stderr(Stdio::piped())
            .spawn()
            .unwrap_or_else(|error| panic!("{} does not start: {error}", self.path.display()));
        let mut input = child.stdin.take().expect("a pipe");
        let written = write_until_it_ends(&mut input, pieces);
        let open = Some(input).filter(|_| end == End::Open);
        stop_if_late(&mut child);
        let left = child.wait_with_output().expect("what the program printed");
        drop(open);
        let status = left.status.code();
        (Printed { output: left.stdout, errors: left.stderr, status }, written)
    }
}

/// Writes the pieces one by one, until the program reads no further.
fn write_until_it_ends<P: AsRef<[u8]>>(
    input: &mut ChildStdin,
    pieces: impl IntoIterator<Item = P>,
) -> usize {
    let mut written = 0;
    for piece in pieces {
        match input.write_all(piece.as_ref()) {
            Ok(()) => written += piece.as_ref().len(),
            Err(error) if error.kind() == ErrorKind::BrokenPipe => break,
            Err(error) => panic!("the program's standard input: {error}"),
        }
    }
    written
}

/// Waits for the program's end. What it prints has room in the pipes; if it prints
/// more than that, it comes to no end either.
fn stop_if_late(child: &mut Child) {
    let began = Instant::now();
    while child.try_wait().expect("the program's status").is_none() {
        if began.elapsed() >= LONGEST {
            child.kill().expect("the program can be stopped");
            return;
        }
        sleep(ASKED);
    }
}

/// The output for this input, if the program and the second interpreter agree.
pub fn compare(program: &Program, input: &[u8]) -> Result<String, Box<Difference>> {
    compare_with(|input| program.run(input), input)
}

/// The same for any function in the program's place.
pub fn compare_with(
    program: impl FnOnce(&[u8]) -> Printed,
    input: &[u8],
) -> Result<String, Box<Difference>> {
    let output = second::program(input);
    let printed = program(input);
    let mut faults = Vec::new();
    if printed.output != output {
        faults.push(format!("the second interpreter prints {}", quoted(&output)));
        faults.push(format!("the program prints            {}", quoted(&printed.output)));
    }
    if !printed.errors.is_empty() {
        faults.push(format!("standard error has {}", quoted(&printed.errors)));
    }
    match printed.status {
        Some(0) => {}
        Some(status) => faults.push(format!("the exit status is {status}")),
        None => faults.push("the program was stopped".to_string()),
    }
    if faults.is_empty() {
        return Ok(String::from_utf8(output).expect("the second interpreter prints text"));
    }
    let (image, starts) = parts(input);
    let call = format!("program on {} bytes, starting values {starts:?}", input.len());
    Err(Box::new(Difference { call, faults, image, bytes: vec![("the input", input.to_vec())] }))
}

/// An output without its values: the refusal, or 0, and the outcome in words.
pub fn in_words(output: &str) -> (u32, String) {
    let words: Vec<&str> = output.lines().next().unwrap_or("").split(' ').collect();
    match words.as_slice() {
        ["refused", number, ..] => {
            (number.parse().expect("a number of the list"), format!("refused {number}"))
        }
        [outcome, ..] => (0, outcome.to_string()),
        [] => (0, String::new()),
    }
}

/// Bytes as text in quotes; a byte that is no plain character is escaped.
fn quoted(bytes: &[u8]) -> String {
    format!("\"{}\"", bytes.escape_ascii())
}

/// The image's words in an input as far as they are there, and the whole values
/// behind them.
fn parts(input: &[u8]) -> (Vec<u32>, Vec<i64>) {
    let (image, rest) = split_image(input);
    (words(image), integers(rest))
}
