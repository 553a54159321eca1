//! The command line of the second interpreter.

use second::bytes::{check, whole_image};
use second::carried::Range;
use second::command_line::{arguments, asks_for_help, complain, write_out};
use second::engine::{needs, pass, ranges, Answer, WORK_WORDS};
use second::generate::Family;
use second::needs::{Needs, EFFORT};
use second::page::lines_of;
use second::program::{print_answer, print_needs, print_ranges, program, with_budget};
use second::reader::read;
use second::refusal::Refusal;
use second::show::{from_hexadecimal, hexadecimal, show};
use std::io::Read;
use std::process::ExitCode;

const HELP: &str = "\
second: the second interpreter of the Π IR routine engine

usage: second COMMAND [--hex]

  program                    standard input: an image and its starting values, as
                             the program reads them; prints the program's output:
                             the outcome, `steps K`, `most C B V K` with the most
                             cells, bindings, value entries and control entries
                             over all states of the run, and the registers
  run BUDGET                 the same at another budget
  check                      standard input: an image; prints `code C`, `command`
                             or `refused N at P`
  needs                      standard input: an image; prints its needs, one line
                             each: `control N`, `values N`, `cells N`, `bindings N`
                             and `steps N` or `steps open`; or `refused N at P`.
                             Where the runs are too many to go through, each line
                             has what some of them reach: `control at least N`
  page                       standard input: an image; prints its page, a line for
                             each node: the node, its depth, the kind's name, the
                             operand and the first node after its descendants; or
                             `refused N at P`
  ranges RANGE..             standard input: an image; from a range of each register's
                             start, LOWEST..HIGHEST or one integer for both, prints
                             that of its end: `register I LOWEST..HIGHEST`; or
                             `refused N at P`
  show                       standard input: an image; prints it as a tree
  generate FAMILY SEED COUNT prints COUNT images made from SEED, SEED + 1, and so
                             on, one a line, as words in hexadecimal
  generate --inputs FAMILY SEED COUNT
                             the same, each with its starting values behind it as
                             two words a value, low word first: the whole input of
                             the program
  help                       prints this, and so does --help behind any command

With --hex, program, run, check, needs, page, ranges and show read words in
hexadecimal, as generate prints them, in place of little-endian bytes.

families: small medium large faulty sequences choices functions divisions ranges
          limits damaged empty shaped plausible words host

Exit status: 0 where the command is done, a refusal printed too; 2 where the
command line or the input is wrong or a stream fails.
";

const COMMANDS: [&str; 8] =
    ["program", "run", "check", "needs", "page", "ranges", "show", "generate"];

fn main() -> ExitCode {
    let done = arguments().and_then(|arguments| answer(&arguments)).and_then(write_out);
    match done {
        Ok(_) => ExitCode::SUCCESS,
        Err(message) => {
            complain("second", &message);
            ExitCode::from(2)
        }
    }
}

/// The output of a command line, or what is wrong with it.
fn answer(arguments: &[String]) -> Result<Vec<u8>, String> {
    let arguments: Vec<&str> = arguments.iter().map(String::as_str).collect();
    match arguments.as_slice() {
        asked if asks_for_help(asked, &COMMANDS) => Ok(HELP.into()),
        ["program", options @ ..] => Ok(program(&input(options)?)),
        ["run", budget, options @ ..] => {
            let budget = number(budget, "BUDGET")?;
            Ok(with_budget(&input(options)?, budget))
        }
        ["check", options @ ..] => Ok(print_answer(check(&input(options)?, WORK_WORDS)).into()),
        ["needs", options @ ..] => {
            let needs = match whole_image(&input(options)?) {
                Ok(image) => needs(&image, WORK_WORDS, EFFORT),
                Err(refusal) => Needs::Refused(refusal),
            };
            Ok(print_needs(needs).into())
        }
        ["page", options @ ..] => {
            match whole_image(&input(options)?).and_then(|image| pass(&image)) {
                Ok((routine, _)) => Ok(lines_of(&routine).into()),
                Err(refusal) => Ok(print_answer(Answer::Refused(refusal)).into()),
            }
        }
        ["ranges", given @ ..] => {
            let first_option = given.iter().position(|word| word.starts_with("--"));
            let (given, options) = given.split_at(first_option.unwrap_or(given.len()));
            let starts = given.iter().map(|word| word.parse()).collect::<Result<Vec<_>, _>>()?;
            let ends = whole_image(&input(options)?).and_then(|image| ends_of(&image, starts));
            Ok(print_ranges(ends.as_deref().map_err(|refusal| *refusal)).into())
        }
        ["show", options @ ..] => {
            match whole_image(&input(options)?).and_then(|image| read(&image)) {
                Ok(routine) => Ok(show(&routine).into()),
                Err(refusal) => Ok(print_answer(Answer::Refused(refusal)).into()),
            }
        }
        ["generate", "--inputs", family, seed, count] => generate(family, seed, count, true),
        ["generate", family, seed, count] => generate(family, seed, count, false),
        [] => Err("no command; `second help` lists them".to_string()),
        [command @ ("run" | "generate"), ..] => {
            Err(format!("wrong arguments for {command}; see `second help`"))
        }
        [command, ..] => Err(format!("no command {command}; `second help` lists them")),
    }
}

/// The ends of an image's registers from these starts.
fn ends_of(image: &[u32], mut starts: Vec<Range>) -> Result<Vec<Range>, Refusal> {
    let mut lowest: Vec<i64> = starts.iter().map(|start| start.lowest).collect();
    let mut highest: Vec<i64> = starts.iter().map(|start| start.highest).collect();
    ranges(image, &mut lowest, &mut highest, WORK_WORDS)?;
    for (register, range) in starts.iter_mut().enumerate() {
        *range = Range::new(lowest[register], highest[register]);
    }
    Ok(starts)
}

fn number(text: &str, what: &str) -> Result<u64, String> {
    text.parse().map_err(|_| format!("{what} must be a whole number, not {text}"))
}

/// Standard input's bytes, or the bytes of the words in hexadecimal there.
fn input(options: &[&str]) -> Result<Vec<u8>, String> {
    let hexadecimal = match options {
        [] => false,
        ["--hex"] => true,
        [other, ..] => return Err(format!("no option {other}; see `second help`")),
    };
    let mut bytes = Vec::new();
    std::io::stdin().read_to_end(&mut bytes).map_err(|error| format!("standard input: {error}"))?;
    if !hexadecimal {
        return Ok(bytes);
    }
    let text = String::from_utf8(bytes).map_err(|_| "standard input is no text".to_string())?;
    let words = from_hexadecimal(&text).map_err(|piece| format!("{piece} is no 32-bit word"))?;
    Ok(second::encode::bytes_of(&words))
}

fn generate(family: &str, seed: &str, count: &str, inputs: bool) -> Result<Vec<u8>, String> {
    let family = Family::named(family)
        .ok_or_else(|| format!("no family {family}; `second help` lists them"))?;
    let (seed, count) = (number(seed, "SEED")?, number(count, "COUNT")?);
    let mut text = String::new();
    for offset in 0..count {
        let case = family.case(seed.wrapping_add(offset));
        let mut line = case.image;
        if inputs {
            let halves = |value: &i64| [*value as u32, (*value >> 32) as u32];
            line.extend(case.registers.iter().flat_map(halves));
        }
        text += &hexadecimal(&line);
        text.push('\n');
    }
    Ok(text.into())
}
