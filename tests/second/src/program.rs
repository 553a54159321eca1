//! The program: standard input's bytes to standard output's text (the paper's
//! "The program and its cases").

use crate::bytes::{integers, words};
use crate::carried::Range;
use crate::engine::{run, Answer, Outcome, Reply, MOST_BUDGET, WORK_WORDS};
use crate::needs::{Figures, Needs, Steps};
use crate::reader::Counts;
use crate::refusal::{self, Refusal};
use crate::state::Heights;

/// The program's whole output for these bytes of standard input.
pub fn program(input: &[u8]) -> Vec<u8> {
    with_budget(input, MOST_BUDGET)
}

/// The same at another budget.
pub fn with_budget(input: &[u8], budget: u64) -> Vec<u8> {
    if budget > MOST_BUDGET {
        return print(refused(refusal::BUDGET), &[]);
    }
    let (image, mut registers) = match split(input) {
        Ok(parts) => parts,
        Err(number) => return print(refused(number), &[]),
    };
    let reply = run(&image, &mut registers, budget, WORK_WORDS);
    print(reply, &registers)
}

/// The image's words and the starting values. Under 8 bytes is 1; then n or r
/// (2); then any byte count other than 8 + 8n + 8r is 1.
fn split(input: &[u8]) -> Result<(Vec<u32>, Vec<i64>), u32> {
    if input.len() < 8 {
        return Err(refusal::LENGTH);
    }
    let counts = words(&input[..8]);
    let counts = Counts::judge(counts[0], counts[1]).map_err(|refusal| refusal.number)?;
    let image_bytes = 4 * counts.words();
    if input.len() != image_bytes + 8 * counts.registers as usize {
        return Err(refusal::LENGTH);
    }
    let (image, starts) = input.split_at(image_bytes);
    Ok((words(image), integers(starts)))
}

fn refused(number: u32) -> Reply {
    Reply::refused(Refusal::whole(number))
}

/// One line each: the outcome, the steps, the high marks, then each register unless 1
/// to 22.
pub fn print(reply: Reply, registers: &[i64]) -> Vec<u8> {
    let mut text = match reply.outcome {
        Outcome::Number(number) => format!("number {number}\n"),
        Outcome::Truth(truth) => format!("truth {}\n", truth as u32),
        Outcome::Cell(location) => format!("cell {}\n", location.0),
        Outcome::None => "none\n".to_string(),
        Outcome::Refused(refusal) => refused_line(refusal),
    };
    text += &format!("steps {}\n", reply.steps);
    let Heights { cells, bindings, values, control } = reply.marks;
    text += &format!("most {cells} {bindings} {values} {control}\n");
    let silent = reply.refusal().is_some_and(|refusal| refusal::before_the_run(refusal.number));
    if !silent {
        for (index, value) in registers.iter().enumerate() {
            text += &format!("register {index} {value}\n");
        }
    }
    text.into_bytes()
}

/// The checker's answer on one line, for the command line.
pub fn print_answer(answer: Answer) -> String {
    match answer {
        Answer::Code(code) => format!("code {code}\n"),
        Answer::Command => "command\n".to_string(),
        Answer::Refused(refusal) => refused_line(refusal),
    }
}

/// The needs, one line a figure, for the command line. What is only known to be reached
/// says so.
pub fn print_needs(needs: Needs) -> String {
    let (Figures { room, steps }, reached) = match needs {
        Needs::Figures(figures) => (figures, ""),
        Needs::AtLeast(figures) => (figures, "at least "),
        Needs::Refused(refusal) => return refused_line(refusal),
    };
    let sizes = [
        ("control", room.control),
        ("values", room.values),
        ("cells", room.cells),
        ("bindings", room.bindings),
    ];
    let lines = sizes.map(|(name, size)| format!("{name} {reached}{size}\n"));
    let steps = match steps {
        Steps::Most(steps) => format!("steps {reached}{steps}\n"),
        Steps::Open => "steps open\n".to_string(),
    };
    lines.concat() + &steps
}

/// The ends of registers, one line each, for the command line.
pub fn print_ranges(ends: Result<&[Range], Refusal>) -> String {
    match ends {
        Ok(ends) => {
            let lines = ends.iter().enumerate();
            lines.map(|(index, range)| format!("register {index} {range}\n")).collect()
        }
        Err(refusal) => refused_line(refusal),
    }
}

fn refused_line(refusal: Refusal) -> String {
    format!("refused {} at {}\n", refusal.number, refusal.place)
}
