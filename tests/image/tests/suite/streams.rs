//! Streams and files that close early or fail.

use crate::binary::*;
use second::encode::bytes_of;
use second::streams::full;
use std::fs::File;

/// A reader that closes early is served quietly, with little output and with much.
#[test]
fn output_that_closes_early() {
    let mut deep = vec![15; 2 + 2 * 2_000];
    (deep[0], deep[1]) = (2_000, 0);
    for input in [bytes_of(&double()), bytes_of(&deep)] {
        let mut child = command(&["show", "-"]).spawn().unwrap();
        drop(child.stdout.take());
        assert_eq!(ended(child, &input), (vec![], String::new(), 0));
    }
}

/// An output that cannot be written is told, also where it has no line's end.
#[test]
fn output_that_fails() {
    let fails = "image: standard output cannot be written: No space left on device (os error 28)\n"
        .to_string();
    for (arguments, input) in [
        (&["make", "-", "5"][..], DOUBLE.as_bytes()),
        (&["make", "-"], DOUBLE.as_bytes()),
        (&["find", "-"], DOUBLE.as_bytes()),
        (&["run", "-", "5"], DOUBLE.as_bytes()),
        (&["needs", "-"], DOUBLE.as_bytes()),
        (&["page", "-"], DOUBLE.as_bytes()),
        (&["show", "-"], &bytes_of(&double())),
        (&["refusals"], b""),
        (&["help"], b""),
    ] {
        let child = command(arguments).stdout(full()).spawn().unwrap();
        assert_eq!(ended(child, input), (vec![], fails.clone(), 2));
    }
}

/// Where standard error fails the message is lost, and the exit status is not.
#[test]
fn error_output_that_fails() {
    let child = command(&["walk"]).stderr(full()).spawn().unwrap();
    assert_eq!(ended(child, &[]), (vec![], String::new(), 2));
    let child = command(&["make", "-"]).stderr(full()).spawn().unwrap();
    assert_eq!(ended(child, DOUBLE.as_bytes()), (bytes_of(&double()), String::new(), 0));
}

#[test]
fn files_that_cannot_be_read() {
    let folder = env!("CARGO_MANIFEST_DIR");
    for command in ["make", "show", "text", "find", "needs", "page"] {
        let none = "no such file: No such file or directory (os error 2)";
        wrong(&[command, "no such file"], b"", none);
        wrong(&[command, folder], b"", &format!("{folder}: Is a directory (os error 21)"));
        wrong(&[command, "/dev/zero"], b"", "/dev/zero is longer than any text or image");
    }
    let child = command(&["show", "-"]).stdin(File::open(folder).unwrap()).output().unwrap();
    let error = String::from_utf8(child.stderr).unwrap();
    assert_eq!(error, "image: standard input: Is a directory (os error 21)\n");
    assert_eq!(child.status.code(), Some(2));
}
