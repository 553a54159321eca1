//! The runs of texts: outcome, steps, high marks and registers, as the program prints them;
//! and refusals of the routine, as the other commands say them.

use crate::binary::*;
use image::parse;
use image::print::print;
use image::run::run_of;
use second::encode::program_input;
use second::engine::pass;
use second::generate::Family;
use std::path::{Path, PathBuf};

fn ran(text: &str, values: &[&str]) -> String {
    text_said(&[&["run", "-"], values].concat(), text.as_bytes())
}

#[test]
fn outcome_steps_marks_and_registers() {
    assert_eq!(ran(DOUBLE, &["5"]), "none\nsteps 14\nmost 2 2 5 6\nregister 0 10\n");
    assert_eq!(ran(DOUBLE, &["-7"]), "none\nsteps 14\nmost 2 2 5 6\nregister 0 -14\n");
    let product = "registers 0 (Mul (Num 5) (Sum (Num 3) (Num 2)))";
    assert_eq!(ran(product, &[]), "number 25\nsteps 7\nmost 0 0 3 4\n");
    assert_eq!(ran("registers 0 (Boo true)", &[]), "truth 1\nsteps 1\nmost 0 0 1 1\n");
    let cell = "cell 1\nsteps 1\nmost 2 2 1 1\nregister 0 4\nregister 1 -4\n";
    assert_eq!(ran("registers 2 (DeRef 1)", &["4", "-4"]), cell);
    assert_eq!(ran("registers 1 ()", &["3"]), "none\nsteps 0\nmost 1 1 0 0\nregister 0 3\n");
}

/// Each register has its own starting value.
#[test]
fn the_starting_values_in_their_order() {
    let text = "registers 3 (Assign 0 (Sub (Id 1) (Id 2)))";
    let expected =
        "none\nsteps 6\nmost 3 3 3 4\nregister 0 -11\nregister 1 9\nregister 2 20\n".to_string();
    assert_eq!(ran(text, &["1", "9", "20"]), expected);
}

/// What is withheld in the run is told as the program tells it, with the registers.
#[test]
fn refusals_of_the_run() {
    let endless = "registers 1 (Loop (Boo true) (Assign 0 (Num 7)))";
    let expected = "refused 30 at 0\nsteps 1000000\nmost 1 1 2 3\nregister 0 7\n";
    assert_eq!(ran(endless, &["5"]), expected);
    let zero = "registers 1 (Assign 0 (Div (Num 1) (Id 0)))";
    assert_eq!(ran(zero, &["0"]), "refused 31 at 0\nsteps 4\nmost 1 1 3 4\nregister 0 0\n");
    let over = "registers 1 (Sum (Id 0) (Num 1))";
    let expected = "refused 32 at 0\nsteps 3\nmost 1 1 2 3\nregister 0 9223372036854775807\n";
    assert_eq!(ran(over, &["9223372036854775807"]), expected);
}

/// A refusal of the routine is said as `find` says it, with its place in the text.
#[test]
fn refusals_of_the_routine() {
    let text = "registers 1\n(CSeq (Assign 0 (Num 1))\n  (Assign 0 (Boo true)))\n";
    assert_eq!(ran(text, &["5"]), text_said(&["find", "-"], text.as_bytes()));
    assert_eq!(ran(text, &["5"]), "-:3:3: 11 type: the node takes another type\n");
    let file = stored("unbound_run.pi", b"registers 0\n(Not\n (Id 5))");
    let expected = format!("{file}:3:2: 10 unbound: the name has no binding\n");
    assert_eq!(text_said(&["run", &file], &[]), expected);
    // The starting values come first.
    let given = "standard input has 1 register, and 0 starting values were given";
    wrong(&["run", "-"], text.as_bytes(), given);
}

fn examples() -> PathBuf {
    Path::new(env!("CARGO_MANIFEST_DIR")).join("../../examples")
}

/// Every sample routine gives what is stored beside it; the one that is refused is found.
#[test]
fn the_sample_routines() {
    let mut compared = 0;
    for entry in std::fs::read_dir(examples()).expect("the samples") {
        let path = entry.expect("a sample").path();
        if path.extension().is_none_or(|ends| ends != "pi") {
            continue;
        }
        let stored = |extension: &str| {
            let path = path.with_extension(extension);
            std::fs::read_to_string(&path).unwrap_or_else(|_| panic!("{}", path.display()))
        };
        let values = stored("values");
        let values: Vec<&str> = values.split_whitespace().collect();
        let text = stored("pi");
        let (expected, output) = (stored("out"), ran(&text, &values));
        match expected.starts_with("refused 11 at ") {
            true => assert_eq!(output, text_said(&["find", "-"], text.as_bytes())),
            false => assert_eq!(output, expected, "{}", path.display()),
        }
        compared += 1;
    }
    assert!(compared > 5);
}

/// Generated routines, by way of their texts: what the program prints for their inputs.
#[test]
fn as_the_program_prints() {
    let (mut compared, mut refused) = (0, 0);
    for family in [Family::Small, Family::Faulty, Family::Functions, Family::Limits] {
        for seed in 0..60 {
            let case = family.case(seed);
            let Ok((routine, _)) = pass(&case.image) else { continue };
            let listing = parse(&print(&routine)).expect("a text");
            let output = run_of("-", &listing, &case.registers);
            assert_eq!(output, second::program(&program_input(&case.image, &case.registers)));
            compared += 1;
            refused += u32::from(output.starts_with(b"refused 3"));
        }
    }
    assert!(compared > 150 && refused > 20, "{compared}, {refused}");
}
