//! The comparison of the program itself: functions that are wrong on purpose stand
//! in the program's place, and each is found out and shown for what it is.

use crate::helpers::{agreed_output, papers_images, CALCULATOR};
use compare::program::{compare_with, Printed};
use second::build::*;
use second::encode::{bytes_of, program_input};

/// What the second interpreter prints, as a right program would.
fn right(input: &[u8]) -> Printed {
    Printed { output: second::program(input), errors: Vec::new(), status: Some(0) }
}

/// The text of the difference that must be found.
fn found(program: impl FnOnce(&[u8]) -> Printed, input: &[u8]) -> String {
    compare_with(program, input).expect_err("a difference").to_string()
}

fn papers_inputs() -> Vec<Vec<u8>> {
    let input =
        |(_, image, _): (_, Vec<u32>, _)| program_input(&image, &vec![3; image[1] as usize]);
    papers_images().into_iter().map(input).collect()
}

#[test]
fn a_right_program_differs_nowhere() {
    for input in papers_inputs() {
        let output = compare_with(right, &input).expect("no difference");
        assert_eq!(output, agreed_output(&input));
    }
}

#[test]
fn a_wrong_output_is_shown_with_the_tree_and_the_bytes() {
    let wrong = |input: &[u8]| {
        let output = b"number 26\nsteps 7\nmost 1 1 1 2\n".to_vec();
        Printed { output, ..right(input) }
    };
    let expected = "\
program on 24 bytes, starting values [-2]
  the second interpreter prints \"number -2\\nsteps 1\\nmost 1 1 1 1\\nregister 0 -2\\n\"
  the program prints            \"number 26\\nsteps 7\\nmost 1 1 1 2\\n\"
the image as a tree:
registers 1
   0 Id 0
the image in hexadecimal:
1 1 3 0
the input byte by byte:
01 00 00 00 01 00 00 00 03 00 00 00 00 00 00 00 fe ff ff ff ff ff ff ff";
    assert_eq!(found(wrong, &program_input(&image(1, id(0)), &[-2])), expected);
}

#[test]
fn an_input_that_holds_no_tree_is_shown_as_it_is() {
    let silent = |input: &[u8]| Printed { output: Vec::new(), ..right(input) };
    let expected = "\
program on 0 bytes, starting values []
  the second interpreter prints \"refused 1 at 0\\nsteps 0\\nmost 0 0 0 0\\n\"
  the program prints            \"\"
the image is no tree (1 at 0); its words:
[]
the image in hexadecimal:

the input byte by byte:
";
    assert_eq!(found(silent, &[]), expected);
    let text = found(silent, &bytes_of(&CALCULATOR)[..39]);
    assert!(text.starts_with("program on 39 bytes, starting values []\n"), "{text}");
    assert!(text.ends_with("05 00 00 00 00 00 00"), "{text}");
    let text = found(silent, &[255; 9]);
    assert!(text.contains("\nthe image in hexadecimal:\nffffffff ffffffff\n"), "{text}");
    assert!(text.ends_with("\nff ff ff ff ff ff ff ff ff"), "{text}");
}

#[test]
fn each_byte_of_the_output_counts() {
    for input in papers_inputs() {
        let output = second::program(&input);
        for index in 0..output.len() {
            let changed = |input: &[u8]| {
                let mut printed = right(input);
                printed.output[index] ^= 0x20;
                printed
            };
            assert!(found(changed, &input).contains("\n  the program prints "));
            let cut = |input: &[u8]| Printed { output: output[..index].to_vec(), ..right(input) };
            assert!(found(cut, &input).contains("\n  the program prints "));
        }
        let longer = |_: &[u8]| Printed { output: [&output[..], b"\n"].concat(), ..right(&input) };
        assert!(found(longer, &input).contains("\n  the program prints "));
    }
}

/// A program that does not print the high marks, and one that prints them in another place.
#[test]
fn an_output_with_no_marks_is_found() {
    for input in papers_inputs() {
        let output = String::from_utf8(second::program(&input)).expect("text");
        let lines: Vec<&str> = output.split_inclusive('\n').collect();
        assert!(lines[2].starts_with("most "), "{output}");
        let without = [&lines[..2], &lines[3..]].concat().concat();
        let earlier = [&[lines[0], lines[2], lines[1]], &lines[3..]].concat().concat();
        for wrong in [without, earlier] {
            let printed = |input: &[u8]| Printed { output: wrong.into_bytes(), ..right(input) };
            assert!(found(printed, &input).contains("\n  the program prints "));
        }
    }
}

#[test]
fn errors_and_the_exit_status_count() {
    let input = bytes_of(&CALCULATOR);
    let text = found(|input| Printed { status: Some(3), ..right(input) }, &input);
    assert!(text.contains("\n  the exit status is 3\n"), "{text}");
    let text = found(|input| Printed { status: None, ..right(input) }, &input);
    assert!(text.contains("\n  the program was stopped\n"), "{text}");
    let text = found(|input| Printed { errors: b"oh\n".to_vec(), ..right(input) }, &input);
    assert!(text.contains("\n  standard error has \"oh\\n\"\n"), "{text}");
    assert!(!text.contains("the program prints"), "{text}");
}
