//! The ranges of texts: a line for each register, refusals as the other commands say them,
//! and clear errors for what is no range.

use crate::binary::*;
use image::parse;
use image::print::print;
use image::ranges::ranges_of;
use second::engine::pass;
use second::generate::random::Random;
use second::generate::starts::starts;
use second::generate::Family;
use second::ranges::ends;
use std::path::{Path, PathBuf};

fn ranged(text: &str, ranges: &[&str]) -> String {
    text_said(&[&["ranges", "-"], ranges].concat(), text.as_bytes())
}

#[test]
fn a_line_for_each_register() {
    assert_eq!(ranged(DOUBLE, &["20..40"]), "register 0 40..80\n");
    assert_eq!(ranged(DOUBLE, &["-7"]), "register 0 -14..-14\n");
    assert_eq!(ranged(DOUBLE, &["-7..-7"]), "register 0 -14..-14\n");
    let text = "registers 3 (Cond (Lt (Id 0) (Num 5)) (Assign 1 (Num 1)) (Assign 2 (Id 0)))";
    let expected = "register 0 -2..9\nregister 1 1..7\nregister 2 -2..9\n";
    assert_eq!(ranged(text, &["-2..9", "7", "0..3"]), expected);
    assert_eq!(ranged("registers 0 (Boo true)", &[]), "");
    assert_eq!(ranged("registers 2 ()", &["1..2", "-1"]), "register 0 1..2\nregister 1 -1..-1\n");
    let all = "-9223372036854775808..9223372036854775807";
    assert_eq!(ranged("registers 1 (Id 0)", &[all]), format!("register 0 {all}\n"));
}

/// A refusal is said as `find` says it, 44 with its place in the text.
#[test]
fn refusals() {
    let text = "registers 1\n(CSeq (Assign 0 (Num 1))\n  (Assign 0 (Boo true)))\n";
    assert_eq!(ranged(text, &["1"]), text_said(&["find", "-"], text.as_bytes()));
    let by = "registers 2\n(Assign 0\n  (Div (Num 9) (Id 1)))";
    let unsafe_one =
        "44 unsafe arithmetic: an end leaves the integers, or the divisor's range holds 0";
    assert_eq!(ranged(by, &["0", "-1..1"]), format!("-:3:3: {unsafe_one}\n"));
    assert_eq!(ranged(by, &["0", "1..3"]), "register 0 3..9\nregister 1 1..3\n");
    let crossed = "-: 42 crossed limits: a lowest start is above its highest\n";
    assert_eq!(ranged(by, &["0", "1..0"]), crossed);
    let looped = "registers 1 (Loop (Boo false) (Assign 0 (Num 1)))";
    assert_eq!(ranged(looped, &["0"]), "-: 43 loop: a Loop is in the tree\n");
    let file = stored("by.pi", by.as_bytes());
    let expected = format!("{file}:3:3: {unsafe_one}\n");
    assert_eq!(text_said(&["ranges", &file, "0", "0"], &[]), expected);
}

#[test]
fn what_is_no_range() {
    let refused = |ranges: &[&str], message: &str| {
        wrong(&[&["ranges", "-"], ranges].concat(), DOUBLE.as_bytes(), message);
    };
    refused(&[], "standard input has 1 register, and 0 ranges were given");
    refused(&["1", "2..3"], "standard input has 1 register, and 2 ranges were given");
    for word in ["", "..", "1..", "..1", "1..2..3", "1.2", "1-2", "many", "1..b", "0x10", "1 2"] {
        let message = format!("a range is LOWEST..HIGHEST or one integer, not {word}");
        refused(&[word], &message);
    }
    let ends = "an end is -9223372036854775808 to 9223372036854775807";
    for word in ["9223372036854775808", "-9223372036854775809"] {
        let message = format!("{word} is out of range: {ends}");
        refused(&[word], &message);
        refused(&[&format!("0..{word}")], &message);
        refused(&[&format!("{word}..0")], &message);
    }
    // A range that is wrong comes before their count, and the text before both.
    refused(&["1", "few"], "a range is LOWEST..HIGHEST or one integer, not few");
    wrong(&["ranges"], &[], "wrong arguments for ranges; see `image help`");
    wrong(
        &["ranges", "-", "few"],
        b"registers",
        "-:1:10: the count of registers must stand here, 0 to 16, not the end of the text",
    );
}

fn examples() -> PathBuf {
    Path::new(env!("CARGO_MANIFEST_DIR")).join("../../examples")
}

/// Every sample routine gives what is stored beside it.
#[test]
fn the_sample_routines() {
    let mut compared = 0;
    for entry in std::fs::read_dir(examples()).expect("the samples") {
        let path = entry.expect("a sample").path();
        if path.extension().is_none_or(|ends| ends != "pi") {
            continue;
        }
        let stored = |extension: &str| {
            let path = path.with_extension(extension);
            std::fs::read_to_string(&path).unwrap_or_else(|_| panic!("{}", path.display()))
        };
        let limits = stored("limits");
        let limits: Vec<&str> = limits.split_whitespace().collect();
        let output = ranged(&stored("pi"), &limits);
        // What is stored names the file in place of standard input.
        let name = format!("examples/{}", path.file_name().expect("a name").display());
        let named =
            output.replacen("-:", &format!("{name}:"), usize::from(output.starts_with("-:")));
        assert_eq!(named, stored("ranges"), "{}", path.display());
        compared += 1;
    }
    assert!(compared > 5);
}

/// Generated routines, by way of their texts.
#[test]
fn as_the_second_interpreter_says() {
    let random = &mut Random::new(3);
    let (mut given, mut refused) = (0, 0);
    for family in [Family::Ranges, Family::Small, Family::Functions] {
        for seed in 0..80 {
            let Ok((routine, _)) = pass(&family.case(seed).image) else { continue };
            let limits = starts(random, routine.registers as usize);
            let listing = parse(&print(&routine)).expect("a text");
            let output = ranges_of("-", &listing, &limits);
            match ends(&routine, &limits) {
                Ok(ends) => {
                    let lines = ends.iter().enumerate();
                    let lines = lines.map(|(index, range)| format!("register {index} {range}\n"));
                    assert_eq!(output, lines.collect::<String>());
                    given += 1;
                }
                Err(refusal) => {
                    assert!(output.contains(&format!(": {} ", refusal.number)), "{output}");
                    refused += 1;
                }
            }
        }
    }
    assert!(given > 100 && refused > 20, "{given}, {refused}");
}
