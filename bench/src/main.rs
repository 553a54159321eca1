//! Times the engine beside the second interpreter and prints tables.

mod images;
mod measure;
mod placement;
mod race;
mod ranged;
mod routines;
mod rows;

use compare::progress::{in_words, Progress};
use measure::REPETITIONS;
use race::{beside_table, ranges_table, table, Beside, BesideRun, Race};
use rows::{beside_check, beside_run, check_race, clearing, run_race};
use second::command_line::{arguments, complain, write_out, Reader};
use std::process::ExitCode;

const HELP: &str = "\
bench: times the engine's static library beside the second interpreter

usage: bench           measures, and prints five tables
       bench --help    prints this; so do -h and help

The tables:

  check    nanoseconds a node, for four images
  needs    nanoseconds a node, for four images: the check, the needs and the page, a
           line a node, by the engine alone, and how many times longer than the check
           the others take; 2 is asked at most of the needs
  calls    nanoseconds a call: checks of the smallest images, with one node and with
           none, the run of a slot with no routine; and to clear the work words
  run      nanoseconds a step, for eight routines
  ranges   nanoseconds a step of the run, for five routines without Loop: the run and
           the ranges by the engine alone, and how many times longer the ranges take

Check, calls and run have the engine's time and the second interpreter's, and check and run
say how many times longer the second takes. A time is the median of 501 repetitions.

It takes 13 seconds in a release build. On a terminal the row that is measured is shown
on standard error. The machine should have little else to do.

Exit status: 0 measured, 1 the two give different answers, 2 bad usage or an output that
cannot be written.
";

const NOTES: &str = "\
Work words are neither cleared nor filled before a call: each call finds the 8,192 words
as the last call left them, all 0, and clears them again within the time measured. The
second interpreter has no work words. A run's time takes in reading and checking its
image, for both. Images and work words are warm in the cache.
";

/// What ends the program before all is printed: the exit status, and what to say.
enum End {
    /// No one reads what would be printed.
    Unread,
    Fault(u8, String),
}

fn main() -> ExitCode {
    let ended = match arguments() {
        Ok(arguments) => answer(&arguments),
        Err(message) => Err(End::Fault(2, message)),
    };
    match ended {
        Ok(()) | Err(End::Unread) => ExitCode::SUCCESS,
        Err(End::Fault(status, message)) => {
            complain("bench", &message);
            ExitCode::from(status)
        }
    }
}

fn answer(arguments: &[String]) -> Result<(), End> {
    let is_help = |argument: &String| ["help", "--help", "-h"].contains(&argument.as_str());
    match arguments {
        [] => measure_all(),
        _ if arguments.iter().any(is_help) => print(HELP),
        [argument, ..] => Err(End::Fault(2, format!("no argument {argument}; see `bench --help`"))),
    }
}

fn print(text: &str) -> Result<(), End> {
    match write_out(text) {
        Ok(Reader::There) => Ok(()),
        Ok(Reader::Gone) => Err(End::Unread),
        Err(message) => Err(End::Fault(2, message)),
    }
}

fn measure_all() -> Result<(), End> {
    print(&format!("Medians of {REPETITIONS} repetitions, the calls of a row in turn.\n\n"))?;
    let (images, needed, smallest) = (images::checked(), images::needed(), images::smallest());
    let (empty, routines, ranged) = (routines::empty(), routines::timed(), ranged::ranged());
    let all = images.len() + needed.len() + smallest.len() + 1 + routines.len() + ranged.len();
    let mut rows = Rows::of(all);

    let races: Result<Vec<Race>, End> =
        images.iter().map(|timed| rows.measure(timed.name, || check_race(timed))).collect();
    print(&table("check, nanoseconds a node", "nodes", &races?))?;

    let beside: Result<Vec<Beside>, End> =
        needed.iter().map(|timed| rows.measure(timed.name, || beside_check(timed))).collect();
    print(&format!("\n{}", beside_table(&beside?)))?;

    let mut calls = String::new();
    for timed in &smallest {
        calls += &call_line("check", &rows.measure(timed.name, || check_race(timed))?);
    }
    calls += &call_line("run", &rows.measure(empty.name, || run_race(&empty))?);
    let clearing = clearing();
    print(&format!(
        "\ncalls, nanoseconds a call\n{calls}  \
         clearing 8,192 words alone, by this program: {clearing:.0}\n\n"
    ))?;

    let races: Result<Vec<Race>, End> =
        routines.iter().map(|routine| rows.measure(routine.name, || run_race(routine))).collect();
    print(&table("run, nanoseconds a step", "steps", &races?))?;

    let beside =
        ranged.iter().map(|ranged| rows.measure(ranged.routine.name, || beside_run(ranged)));
    let beside: Result<Vec<BesideRun>, End> = beside.collect();
    print(&format!("\n{}", ranges_table(&beside?)))?;
    print(&format!("\n{NOTES}"))
}

/// The times of a call on one line.
fn call_line(call: &str, race: &Race) -> String {
    let Race { name, engine, second, .. } = race;
    format!("  {call} ({name}): engine {engine:.0}, second interpreter {second:.0}\n")
}

/// Rows measured one after another; a terminal shows which one is.
struct Rows {
    progress: Progress,
    begun: usize,
    all: usize,
}

impl Rows {
    fn of(all: usize) -> Rows {
        Rows { progress: Progress::begin(), begun: 0, all }
    }

    fn measure<T>(
        &mut self,
        name: &str,
        row: impl FnOnce() -> Result<T, String>,
    ) -> Result<T, End> {
        self.begun += 1;
        let Rows { progress, begun, all } = self;
        let gone = in_words(progress.gone());
        progress.show(&format!("row {begun} of {all}, {gone} gone: {name}"));
        let measured = row();
        progress.erase();
        measured.map_err(|message| End::Fault(1, message))
    }
}
