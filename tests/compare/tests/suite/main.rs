//! The engine held against the second interpreter: a folder a function of the
//! engine and one for the program, a file a subject.

mod bytes;
mod changes;
mod check;
mod command_line;
mod ends;
mod helpers;
mod image_calls;
mod needs;
mod page;
mod program;
mod ranges;
mod run;
mod scripts;
