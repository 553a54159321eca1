//! The command line: long comparisons by one command.

use compare::difference::Difference;
use compare::program::Program;
use compare::progress::{of_all, Progress};
use compare::range_sample::{compare_ranges, RANGED};
use compare::sample::{compare_bytes, compare_check, compare_needs, compare_page};
use compare::sample::{compare_program, compare_run, Mixture, Sample, CHECKED, NEEDED, RUN};
use compare::tally::Tally;
use second::command_line::{arguments, asks_for_help, complain, write_out};
use second::generate::Family;
use std::process::ExitCode;

const HELP: &str = "\
compare: holds the engine's static library and the program against the second
interpreter

usage: compare COMMAND

  check COUNT SEED           compares the check of COUNT images made from SEED,
                             SEED + 1, and so on, of all families
  check COUNT SEED FAMILY    the same, of one family
  run COUNT SEED             compares the runs of COUNT images: a short run at
                             every budget, a long one at some
  run COUNT SEED FAMILY      the same, of one family
  needs COUNT SEED           compares the needs of COUNT images; those whose free runs
                             are too many for the second interpreter are counted
                             apart, and compared as far as it has gone
  needs COUNT SEED FAMILY    the same, of one family
  page COUNT SEED            compares the pages of COUNT images, each in lent pages that
                             are too short, exact and longer
  page COUNT SEED FAMILY     the same, of one family
  ranges COUNT SEED          compares the ranges of COUNT images, each from limits of three
                             sorts and with lists of other lengths; and holds runs from
                             starts within the limits, whole and cut off, to the ends
  ranges COUNT SEED FAMILY   the same, of one family
  bytes COUNT SEED           compares the calls on bytes of COUNT images: whole, at
                             some budgets, and with lengths, bytes, registers, work
                             words or a budget changed
  bytes COUNT SEED FAMILY    the same, of one family
  program COUNT SEED         compares what the program prints for COUNT images with
                             starting values, and for inputs made from them: cut,
                             lengthened, changed
  program COUNT SEED FAMILY  the same, of one family
  help, --help, -h           prints this

The first difference is printed, as a tree and as words, and ends the comparison.
Exit status: 0 no difference, 1 a difference, 2 bad usage or an output that cannot be
written. The program is target/bin/pirun, or what PIRUN names.

In a release build a second is enough for about 5,000 images of check, 500 of run,
1,500 of needs, 1,500 of page, 350 of ranges, 1,000 of bytes and 350 of program: 100,000
images take 20 seconds, 3 minutes, 1 minute, 1 minute, 5 minutes, 2 minutes and 5 minutes.
On a terminal the count and the time left are shown on standard error.

families: small medium large faulty sequences choices functions divisions ranges
          limits damaged empty shaped plausible words host
";

/// Compares one sample and counts what it was answered.
type Comparison = fn(Sample, &mut Tally) -> Result<(), Box<Difference>>;

/// The comparisons by their command, each with the mixture of families it takes.
const COMPARISONS: [(&str, Comparison, &Mixture); 7] = [
    ("check", compare_check, &CHECKED),
    ("run", compare_run, &RUN),
    ("needs", compare_needs, &NEEDED),
    ("page", compare_page, &RUN),
    ("ranges", compare_ranges, &RANGED),
    ("bytes", compare_bytes, &CHECKED),
    (PROGRAM, compare_program, &RUN),
];
/// The comparison that needs the program.
const PROGRAM: &str = "program";

/// A command line, understood.
enum Request {
    Help,
    Compare { name: &'static str, comparison: Comparison, samples: Samples },
}

struct Samples {
    count: u64,
    seed: u64,
    source: Source,
}

enum Source {
    One(Family),
    All(&'static Mixture),
}

fn main() -> ExitCode {
    match arguments().and_then(|arguments| understand(&arguments)) {
        Ok(Request::Help) => printed(HELP, ExitCode::SUCCESS),
        Ok(Request::Compare { name, comparison, samples }) => {
            let (text, status) = compare_all(name, comparison, &samples);
            printed(&text, status)
        }
        Err(message) => refused(&message),
    }
}

/// Prints a text and ends with this status, also where no one reads the text.
fn printed(text: &str, status: ExitCode) -> ExitCode {
    match write_out(text) {
        Ok(_) => status,
        Err(message) => refused(&message),
    }
}

fn refused(message: &str) -> ExitCode {
    complain("compare", message);
    ExitCode::from(2)
}

fn understand(arguments: &[String]) -> Result<Request, String> {
    let arguments: Vec<&str> = arguments.iter().map(String::as_str).collect();
    let (command, rest) = match arguments.as_slice() {
        [] => return Err("no command; `compare help` lists them".to_string()),
        asked if asks_for_help(asked, &COMPARISONS.map(|(name, ..)| name)) => {
            return Ok(Request::Help);
        }
        [command, rest @ ..] => (*command, rest),
    };
    let found = COMPARISONS.into_iter().find(|(name, ..)| *name == command);
    let Some((name, comparison, mixture)) = found else {
        return Err(format!("no command {command}; `compare help` lists them"));
    };
    let (count, seed, family) = match rest {
        [count, seed] => (count, seed, None),
        [count, seed, family] => (count, seed, Some(*family)),
        _ => return Err(format!("{name} takes COUNT, SEED and FAMILY or not; see `compare help`")),
    };
    let source = match family {
        None => Source::All(mixture),
        Some(family) => Source::One(
            Family::named(family)
                .ok_or_else(|| format!("no family {family}; `compare help` lists them"))?,
        ),
    };
    let samples = Samples { count: number(count, "COUNT")?, seed: number(seed, "SEED")?, source };
    if name == PROGRAM {
        Program::found()?;
    }
    Ok(Request::Compare { name, comparison, samples })
}

fn number(text: &str, what: &str) -> Result<u64, String> {
    text.parse().map_err(|_| format!("{what} must be a whole number, not {text}"))
}

impl Samples {
    fn sample(&self, index: u64) -> Sample {
        let seed = self.seed.wrapping_add(index);
        match self.source {
            Source::One(family) => Sample { family, seed },
            Source::All(mixture) => Sample::mixed(seed, mixture),
        }
    }
}

/// Compares all samples, or those up to the first difference: what is to be printed,
/// and the exit status.
fn compare_all(name: &str, comparison: Comparison, samples: &Samples) -> (String, ExitCode) {
    let mut tally = Tally::default();
    let mut progress = Progress::begin();
    for index in 0..samples.count {
        let sample = samples.sample(index);
        if let Err(difference) = comparison(sample, &mut tally) {
            let (calls, seed, family) = (tally.calls(), sample.seed, sample.family_name());
            let text = format!(
                "{difference}\nafter {calls} calls that agreed; this case alone:\n\
                 compare {name} 1 {seed} {family}\n"
            );
            return (text, ExitCode::FAILURE);
        }
        progress.show_now_and_then(|gone| {
            format!("{name}: {}", of_all(index + 1, samples.count, "images", gone))
        });
    }
    let (answers, calls, count) = (tally.text(), tally.calls(), samples.count);
    let seconds = progress.gone().as_secs_f64();
    let text =
        format!("{answers}{name}: {count} images, {calls} calls, no difference, {seconds:.1} s\n");
    (text, ExitCode::SUCCESS)
}
