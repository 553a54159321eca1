//! Lent pages of every length near the one that the lines have, and 22, the image's refusals
//! and 41 in this order.

use crate::helpers::*;
use compare::inputs::random_bytes;
use compare::page::{self, Paged, LINE};
use second::build::*;
use second::encode;
use second::engine::WORK_WORDS;
use second::generate::limits::{with_depth, with_nodes};
use second::generate::random::Random;

/// The refusal's number or 0 that both give with a lent page and a work slice of these
/// lengths.
fn refusal(image: &[u32], length: usize, work_length: usize, random: &mut Random) -> u32 {
    let before = random_bytes(length, random);
    let Paged { answer, .. } = page::compare(image, &before, work_length, random)
        .unwrap_or_else(|difference| panic!("{difference}"));
    answer.err().map_or(0, |refusal| refusal.number)
}

#[test]
fn every_length_for_small_trees() {
    let random = &mut Random::new(1);
    let small = [vec![0, 3], image(0, num(7)), image(0, not(boo(true))), CALCULATOR.to_vec()];
    for image in small.into_iter().chain([papers_image("I")]) {
        let lines = LINE * image[0] as usize;
        for length in 0..=lines + 2 * LINE {
            let expected = if length < lines { 41 } else { 0 };
            assert_eq!(refusal(&image, length, WORK_WORDS, random), expected, "{length} bytes");
        }
    }
}

/// Every length near that of its lines, for every count of nodes that is near a limit or near
/// a count of digits.
#[test]
fn lengths_near_that_of_the_lines() {
    let random = &mut Random::new(2);
    for nodes in [9, 10, 11, 99, 100, 101, 999, 1_000, 1_001, 1_999, 2_000] {
        let image = encode(&with_nodes(nodes));
        let lines = LINE * nodes;
        for length in lines - LINE - 1..=lines + LINE + 1 {
            let expected = if length < lines { 41 } else { 0 };
            assert_eq!(refusal(&image, length, WORK_WORDS, random), expected, "{length} bytes");
        }
        assert_eq!(refusal(&image, lines / 2, WORK_WORDS, random), 41);
        assert_eq!(refusal(&image, 1 << 18, WORK_WORDS, random), 0);
    }
}

/// Trees of every depth that a node's depth takes one digit or two for, to the greatest.
#[test]
fn trees_of_many_depths() {
    let random = &mut Random::new(3);
    for depth in (8..=64).flat_map(|depth| [depth; 4]) {
        let image = encode(&with_depth(random, depth));
        let lines = LINE * image[0] as usize;
        assert_eq!(refusal(&image, lines, WORK_WORDS, random), 0, "depth {depth}");
        assert_eq!(refusal(&image, lines - 1, WORK_WORDS, random), 41, "depth {depth}");
    }
}

/// First 22, then the image, then 41: each with and without what would come behind it.
#[test]
fn in_the_order_of_the_refusals() {
    let random = &mut Random::new(4);
    let images = [
        (0, image(1, assign(0, num(1)))),
        (1, vec![2, 1, 20]),
        (2, vec![2_001, 0]),
        (3, vec![2, 0, 15, 99, 0, 0]),
        (4, vec![2, 0, 15, 2, 0, 2]),
        (5, vec![2, 0, 15, 15, 0, 0]),
        (6, image(0, (0..64).fold(boo(true), |operand, _| not(operand)))),
        (10, image(1, assign(0, id(9)))),
        (11, image(1, assign(0, boo(true)))),
        (12, image(1, blk(dseq(bind(1, num(1)), bind(1, num(2))), assign(0, num(0))))),
        (13, image(1, blk(bind(1, num(0)), assign(1, num(0))))),
        (14, image(1, call(0, vec![]))),
    ];
    for (number, image) in images {
        let lines = LINE * image[0] as usize;
        for length in [0, 1, lines - 1, lines, lines + 1] {
            for work_length in [0, 1, WORK_WORDS - 1] {
                assert_eq!(refusal(&image, length, work_length, random), 22, "{number}");
            }
            for work_length in [WORK_WORDS, WORK_WORDS + 1] {
                let expected = if number == 0 && length < lines { 41 } else { number };
                assert_eq!(refusal(&image, length, work_length, random), expected, "{number}");
            }
        }
    }
}

/// What the page holds before is kept or written over, and never read: all bytes alike, of
/// every value, and lines of a page already.
#[test]
fn what_the_page_holds_changes_nothing() {
    let random = &mut Random::new(5);
    for (_, image, _) in papers_images() {
        let lines = LINE * image[0] as usize;
        for byte in 0..=255 {
            for length in [lines - 1, lines, lines + 9] {
                page::compare(&image, &vec![byte; length], WORK_WORDS, random)
                    .unwrap_or_else(|difference| panic!("{difference}"));
            }
        }
    }
    let other = encode(&with_nodes(20));
    let mut lines = vec![0; LINE * 20];
    second::page(&other, &mut lines, WORK_WORDS).expect("a page");
    for image in [CALCULATOR.to_vec(), image(2, factorial()), other, vec![0, 0]] {
        page::compare(&image, &lines, WORK_WORDS, random)
            .unwrap_or_else(|difference| panic!("{difference}"));
    }
}
