//! Streams to try a command line with: a full device, and an output that no one reads.

use std::fs::File;
use std::io::{pipe, PipeWriter};

/// A device that takes no byte.
pub fn full() -> File {
    File::options().write(true).open("/dev/full").expect("a device that is full")
}

/// A pipe whose reader has gone before anything is written.
pub fn unread() -> PipeWriter {
    let (reader, writer) = pipe().expect("a pipe");
    drop(reader);
    writer
}
