//! What the command lines of the test programs share: arguments, the wish for help,
//! and output. A reader that has gone ends the output quietly, any other fault of
//! standard output is told, and nothing here panics.

use std::ffi::OsString;
use std::io::{stderr, stdout, ErrorKind, Write};

/// The arguments behind the program's name, or the first that is no text.
pub fn arguments() -> Result<Vec<String>, String> {
    let text = |argument: OsString| {
        argument.into_string().map_err(|other| format!("the argument {other:?} is not UTF-8"))
    };
    std::env::args_os().skip(1).map(text).collect()
}

/// Whether this is `help`, or one of the commands with --help behind it.
pub fn asks_for_help(arguments: &[&str], commands: &[&str]) -> bool {
    match arguments {
        ["help" | "--help" | "-h", ..] => true,
        [command, rest @ ..] if commands.contains(command) => {
            rest.iter().any(|argument| ["--help", "-h"].contains(argument))
        }
        _ => false,
    }
}

/// Whether anyone reads standard output still.
#[derive(Clone, Copy, Debug, PartialEq, Eq)]
pub enum Reader {
    There,
    /// What would come next is read by no one.
    Gone,
}

/// Writes all of an output at once; or says why it cannot.
pub fn write_out(output: impl AsRef<[u8]>) -> Result<Reader, String> {
    let mut stream = stdout().lock();
    match stream.write_all(output.as_ref()).and_then(|()| stream.flush()) {
        Ok(()) => Ok(Reader::There),
        Err(error) if error.kind() == ErrorKind::BrokenPipe => Ok(Reader::Gone),
        Err(error) => Err(format!("standard output cannot be written: {error}")),
    }
}

/// Says on standard error what is wrong, behind the name of the program. If standard
/// error cannot be written there is no one to tell.
pub fn complain(program: &str, message: &str) {
    let _ = writeln!(stderr(), "{program}: {message}");
}
