//! The command line.

use image::files::{image, text};
use image::find::{find_node, find_refusal};
use image::needs::needs_of;
use image::page::page_of;
use image::parse::{parse, Listing};
use image::print::print;
use image::ranges::ranges_of;
use image::run::run_of;
use image::show::show;
use image::stored::split;
use image::values::{missing, ranges, values, values_or_none};
use second::command_line::{arguments, asks_for_help, complain, write_out};
use second::encode::program_input;
use second::reader::read;
use second::refusal;
use std::process::ExitCode;

const HELP: &str = "\
image: images of Π IR routines from readable nested lists, and back

usage: image COMMAND FILE

  make FILE              a text to its image, on standard output
  make FILE VALUE..      the same with a starting value for each register behind it:
                         what the program reads from standard input
  show FILE              an image as a tree, each node with its number; a damaged one as
                         far as it can be made out. Starting values may follow the image
  text FILE              an image as a text, which make turns into the same image
  find FILE              where in a text its routine is refused, or what it passes as
  find FILE NUMBER       where in a text the node of this number stands
  run FILE VALUE..       runs a text's routine with a starting value for each register, by
                         the second interpreter and with the program's budget of
                         1,000,000 steps, and prints what the program prints: the
                         outcome, `steps K`, `most C B V K` and the registers; or where
                         the routine is refused
  needs FILE             what a text's routine needs at most before it is loaded: entries
                         of control and of values, cells, bindings, and steps, which are
                         open where it has a Loop; or where it is refused
  page FILE              the page of a text's routine, a line for each node: the node, its
                         depth, the kind's name, the operand and the first node after its
                         descendants; or where it is refused
  ranges FILE RANGE..    between which ends a text's routine leaves each register that
                         starts within a range, LOWEST..HIGHEST or one integer for both:
                         `register I LOWEST..HIGHEST`; or where it is refused
  refusals               the refusals, one a line: number, name and what it says
  help                   prints this, and so does --help behind any command

FILE is - for standard input. A text is a line `registers R` and one list, or `()` for a
slot with no routine; such as

  registers 1
  ; twice what register 0 holds
  (Blk (Bind 1 (Ref (Id 0)))
    (Assign 0 (Sum (Id 1) (Id 1))))

Numbers are 0 to 4294967295, truths are true and false; tests/image/README.md has every
form of list. A Div gives the largest integer not above the quotient: -7 by 2 and 7 by -2
are -4.

In `refused N at P` the refusal's number is N, as `image refusals` lists them. For 3 to 6,
10 to 14 and 44, P is the number of a node, which show marks and find finds. If several of
30 to 36 hold of a step, the first in the order 30, 31, 32, 33, 34, 36, 35 is told.

In `most C B V K` C is the most live cells, B the most live bindings, V the most entries of
the value stack and K the most of the control stack over all states of the run, the first
included. The registers are among the cells and the bindings.

Exit status: 0 where the command is done, a refusal shown too; 2 where the text or the
command line is wrong or a stream fails.
";

const COMMANDS: [&str; 9] =
    ["make", "show", "text", "find", "run", "needs", "page", "ranges", "refusals"];

/// What a command line gives: the output, and what is to be said beside it.
struct Given {
    output: Vec<u8>,
    note: Option<String>,
}

fn main() -> ExitCode {
    let done = arguments().and_then(|arguments| answer(&arguments)).and_then(|given| {
        write_out(&given.output)?;
        Ok(given.note)
    });
    let (note, status) = match done {
        Ok(note) => (note, ExitCode::SUCCESS),
        Err(message) => (Some(message), ExitCode::from(2)),
    };
    if let Some(note) = note {
        complain("image", &note);
    }
    status
}

/// What a command line gives, or what is wrong with it.
fn answer(arguments: &[String]) -> Result<Given, String> {
    let arguments: Vec<&str> = arguments.iter().map(String::as_str).collect();
    let output: String = match arguments.as_slice() {
        asked if asks_for_help(asked, &COMMANDS) => HELP.to_string(),
        ["make", file, values @ ..] => return make(file, values),
        ["show", file] => show(&image(file)?),
        ["text", file] => text_again(file)?,
        ["find", file] => find_refusal(file, &listing(file)?),
        ["find", file, number] => find_node(file, &listing(file)?, number)?,
        ["run", file, given @ ..] => {
            let listing = listing(file)?;
            let starts = values(file, listing.registers, given)?;
            return Ok(Given { output: run_of(file, &listing, &starts), note: None });
        }
        ["needs", file] => {
            let (output, note) = needs_of(file, &listing(file)?);
            return Ok(Given { output: output.into(), note });
        }
        ["page", file] => page_of(file, &listing(file)?),
        ["ranges", file, given @ ..] => {
            let listing = listing(file)?;
            let starts = ranges(file, listing.registers, given)?;
            ranges_of(file, &listing, &starts)
        }
        ["refusals"] => refusal::TABLE.iter().map(|row| format!("{row}\n")).collect(),
        [] => return Err("no command; `image help` lists them".to_string()),
        [command, ..] if COMMANDS.contains(command) => {
            return Err(format!("wrong arguments for {command}; see `image help`"));
        }
        [command, ..] => return Err(format!("no command {command}; `image help` lists them")),
    };
    Ok(Given { output: output.into(), note: None })
}

fn listing(file: &str) -> Result<Listing, String> {
    parse(&text(file)?).map_err(|fault| format!("{file}:{fault}"))
}

fn make(file: &str, given: &[&str]) -> Result<Given, String> {
    let listing = listing(file)?;
    let values = values_or_none(file, listing.registers, given)?;
    let note = if values.is_empty() { missing(file, listing.registers) } else { None };
    Ok(Given { output: program_input(&listing.image(), &values), note })
}

fn text_again(file: &str) -> Result<String, String> {
    match split(&image(file)?).and_then(|(image, _)| read(&image)) {
        Ok(routine) => Ok(print(&routine)),
        Err(refusal) => Err(format!(
            "{file}: refused {} at {} ({}); `image show {file}` shows what there is",
            refusal.number,
            refusal.place,
            refusal::line(refusal.number)
        )),
    }
}
