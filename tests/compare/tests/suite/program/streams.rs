//! Standard input that comes in pieces, and that is not closed.

use crate::helpers::*;
use compare::inputs::{random_bytes, LONGEST_THAT_FITS};
use compare::program::{End, Printed};
use second::build::*;
use second::encode::{bytes_of, program_input};
use second::generate::random::Random;
use std::iter::repeat_n;
use std::thread::sleep;
use std::time::Duration;

/// More than a pipe holds beside what the program reads.
const STREAM: usize = 1 << 22;

fn printed(input: &[u8]) -> Printed {
    Printed { output: second::program(input), errors: Vec::new(), status: Some(0) }
}

/// The input in pieces of such lengths in turn, each a while after the last, so
/// that the program reads them one by one.
fn slowly<'a>(input: &'a [u8], lengths: &'a [usize]) -> impl Iterator<Item = &'a [u8]> {
    let mut left = input;
    lengths.iter().cycle().map_while(move |length| {
        if left.is_empty() {
            return None;
        }
        sleep(Duration::from_millis(2));
        let (piece, rest) = left.split_at(left.len().min(*length));
        left = rest;
        Some(piece)
    })
}

#[test]
fn an_input_in_pieces_is_read_whole() {
    let small = program_input(&image(2, factorial()), &[1, 20]);
    let large = program_input(&image(16, in_turn(vec![assign(3, num(9)); 667])), &[4; 16]);
    assert_eq!(large.len(), LONGEST_THAT_FITS);
    let cases: [(&[u8], &[usize]); 6] = [
        (&small, &[1]),
        (&small, &[3, 1, 7]),
        (&small, &[8, 4]),
        (&small[..50], &[9]),
        (&large, &[1_000, 999, 1]),
        (&large, &[16_135, 1]),
    ];
    for (input, lengths) in cases {
        let (left, written) = the_program().feed(slowly(input, lengths), End::Closed);
        assert_eq!((left, written), (printed(input), input.len()), "pieces of {lengths:?}");
    }
}

/// One byte more than the longest input that fits is enough for an answer.
#[test]
fn a_long_input_that_stays_open_is_answered() {
    let random = &mut Random::new(1);
    for start in [bytes_of(&CALCULATOR), vec![0; 8], random_bytes(100, random)] {
        let mut input = start;
        input.resize(LONGEST_THAT_FITS + 1, 7);
        let (left, written) = the_program().feed([&input], End::Open);
        assert_eq!((left, written), (printed(&input), input.len()));
        let (left, _) = the_program().feed(slowly(&input, &[5_000, 137]), End::Open);
        assert_eq!(left, printed(&input));
    }
}

/// The stream goes on until the program reads no further, and is never closed.
#[test]
fn an_endless_stream_is_answered() {
    let random = &mut Random::new(2);
    for piece in [bytes_of(&CALCULATOR), vec![0; 1_000], random_bytes(5_000, random), vec![1]] {
        let pieces = repeat_n(&piece, STREAM / piece.len());
        let (left, written) = the_program().feed(pieces, End::Open);
        assert!(written < STREAM / 2, "the program reads on: {written} bytes");
        assert_eq!(left, printed(&piece.repeat(STREAM / piece.len())));
    }
}
