//! What is given to a command: starting values, and a text or an image where the
//! other is wanted.

use crate::binary::*;
use image::files::{is_image, is_text};
use image::print::print;
use second::build::*;
use second::encode::{bytes_of, program_input};
use second::generate::Family;
use second::reader::read;

/// Without its starting values an image is made, with what to do about it on
/// standard error.
#[test]
fn missing_starting_values() {
    let two = stored("two.pi", b"registers 2\n(Sum (Id 0) (Id 1))\n");
    let (output, error, status) = run(&["make", &two], &[]);
    assert_eq!(output, bytes_of(&image(2, sum(id(0), id(1)))));
    let refuses = "the program refuses such an input with 1.";
    assert_eq!(
        error,
        format!(
            "image: {two} has 2 registers and no starting values were given; {refuses} \
             To add them: image make {two} VALUE VALUE\n"
        )
    );
    assert_eq!(status, 0);

    let (output, error, status) = run(&["make", "-"], DOUBLE.as_bytes());
    assert_eq!(output, bytes_of(&double()));
    assert_eq!(
        error,
        format!(
            "image: standard input has 1 register and no starting value was given; {refuses} \
             To add it: image make - VALUE\n"
        )
    );
    assert_eq!(status, 0);

    let (output, error, status) = run(&["make", "-"], b"registers 1 ()");
    assert_eq!((output, status), (bytes_of(&[0, 1]), 0));
    assert!(error.contains("1 register and no starting value was given"), "{error}");

    assert_eq!(said(&["make", "-"], b"registers 0 (Num 1)"), bytes_of(&image(0, num(1))));
}

#[test]
fn wrong_starting_values() {
    let one = stored("one.pi", DOUBLE.as_bytes());
    let is = |value: i64| {
        let input = said(&["make", &one, &value.to_string()], &[]);
        assert_eq!(input, program_input(&double(), &[value]));
    };
    is(i64::MAX);
    is(i64::MIN);
    let range = "a starting value is -9223372036854775808 to 9223372036854775807";
    for value in [
        "9223372036854775808",
        "+9223372036854775808",
        "-9223372036854775809",
        "100000000000000000000000000000000000000000",
    ] {
        wrong(&["make", &one, value], b"", &format!("{value} is out of range: {range}"));
        wrong(&["run", &one, value], b"", &format!("{value} is out of range: {range}"));
    }
    for value in ["x", "", "-", "+", "--1", "1.5", "0x10", "9223372036854775808u"] {
        wrong(&["make", &one, value], b"", &format!("a starting value is an integer, not {value}"));
    }
}

#[test]
fn wrong_counts_of_starting_values() {
    let file = |registers: u32| {
        stored(&format!("count{registers}.pi"), format!("registers {registers} (Num 1)").as_bytes())
    };
    let (none, one, two) = (file(0), file(1), file(2));
    let given = "and 1 starting value was given";
    wrong(&["make", &none, "1"], b"", &format!("{none} has 0 registers, {given}"));
    wrong(&["make", &two, "1"], b"", &format!("{two} has 2 registers, {given}"));
    let given = "and 2 starting values were given";
    wrong(&["make", &one, "1", "2"], b"", &format!("{one} has 1 register, {given}"));
    wrong(&["run", &one, "1", "2"], b"", &format!("{one} has 1 register, {given}"));
    // A run takes no image without its values.
    let given = "and 0 starting values were given";
    wrong(&["run", &one], b"", &format!("{one} has 1 register, {given}"));
    wrong(&["run", &two], b"", &format!("{two} has 2 registers, {given}"));
    let given = "and 1 starting value was given";
    wrong(&["run", &two, "1"], b"", &format!("{two} has 2 registers, {given}"));
    wrong(&["run", &none, "1"], b"", &format!("{none} has 0 registers, {given}"));
    wrong(
        &["run", "-"],
        DOUBLE.as_bytes(),
        "standard input has 1 register, and 0 starting values were given",
    );
}

#[test]
fn an_image_where_a_text_is_wanted() {
    for content in [
        bytes_of(&double()),
        program_input(&double(), &[5]),
        bytes_of(&[1, 0, 99]),
        bytes_of(&[0, 0]),
        program_input(&[0, 1], &[5]),
    ] {
        let file = stored("given.image", &content);
        let message =
            format!("{file} is an image, not a text; `image text {file}` makes a text of it");
        wrong(&["make", &file], b"", &message);
        wrong(&["make", &file, "5"], b"", &message);
        wrong(&["find", &file], b"", &message);
        wrong(&["find", &file, "0"], b"", &message);
        wrong(&["run", &file, "5"], b"", &message);
        wrong(&["needs", &file], b"", &message);
        wrong(&["page", &file], b"", &message);
        wrong(&["ranges", &file, "5"], b"", &message);
    }
    let message = "standard input is an image, not a text; `image text -` makes a text of it";
    wrong(&["make", "-"], &bytes_of(&double()), message);
}

#[test]
fn a_text_where_an_image_is_wanted() {
    let marked = format!("\u{feff} ; a comment\n\n{DOUBLE}");
    for content in [DOUBLE, &marked, "registers"] {
        let file = stored("given.pi", content.as_bytes());
        let message =
            format!("{file} is a text, not an image; `image make {file}` makes its image");
        wrong(&["show", &file], b"", &message);
        wrong(&["text", &file], b"", &message);
    }
    let message = "standard input is a text, not an image; `image make -` makes its image";
    wrong(&["show", "-"], DOUBLE.as_bytes(), message);
}

/// Bytes that are neither are shown as a damaged image, and are no text.
#[test]
fn neither_text_nor_image() {
    let utf_8 = "this is not UTF-8, as a text must be";
    wrong(&["make", "-"], &[255, 254], &format!("-:1:1: {utf_8}"));
    wrong(&["find", "-"], b"registers 0\n; K\xfchlraum\n", &format!("-:2:4: {utf_8}"));
    let zero = "a byte 0 stands here; a text has none";
    wrong(&["make", "-"], b"\xef\xbb\xbfregisters\n\x00", &format!("-:2:1: {zero}"));
    let begins = "the text begins with `registers R`, not with";
    wrong(&["make", "-"], b"no routine", &format!("-:1:1: {begins} `no`"));
    for bytes in [&b"registers 0\n; K\xfchlraum\n"[..], b"registers\x00", b"no routine", b""] {
        let shown = text_said(&["show", "-"], bytes);
        assert!(shown.contains("\nrefused "), "{shown}");
    }
}

/// No generated image is taken for a text, and no text of one for an image.
#[test]
fn texts_and_images_are_told_apart() {
    for (_, family) in Family::ALL {
        for seed in 0..100 {
            let case = family.case(seed);
            assert!(!is_text(&program_input(&case.image, &case.registers)));
            let Ok(routine) = read(&case.image) else { continue };
            let text = print(&routine);
            assert!(is_image(&bytes_of(&case.image)) && !is_image(text.as_bytes()));
            assert!(is_text(text.as_bytes()));
        }
    }
}
