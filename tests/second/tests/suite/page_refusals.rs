//! Pages refused: 22, then the image, then 41; and no byte of the lent page is written then.
//! Where it is not refused, the bytes beyond the lines stay.

use crate::helpers::*;
use crate::refused_images::refused_images;
use second::build::*;
use second::engine::WORK_WORDS;
use second::Refusal;

const FEW: usize = WORK_WORDS - 1;

/// The page of Not(true).
const LINES: &str = "   0  1 Not             0    2
   1  2 Boo             1    2
";

fn truth() -> Vec<u32> {
    image(0, not(boo(true)))
}

/// So many bytes, none of which any line has.
fn marked(length: usize) -> Vec<u8> {
    (0..length).map(|index| 128 + (index % 101) as u8).collect()
}

/// The answer about a page of so many bytes, which a refusal leaves as it was.
fn answered(image: &[u32], page_length: usize, work_length: usize) -> Result<(), Refusal> {
    let before = marked(page_length);
    let (answer, after) = page_over(image, &before, work_length);
    assert!(answer.is_ok() || after == before, "{answer:?} writes a byte");
    answer
}

#[test]
fn first_22_then_the_image_then_41() {
    let ill_typed = image(1, assign(0, boo(true)));
    let no_tree = vec![2, 0, 15, 99, 0, 0];
    for work_length in [0, 1, FEW] {
        for image in [truth(), ill_typed.clone(), no_tree.clone(), vec![], vec![0, 0]] {
            for page_length in [0, 61, 62, 1_000] {
                assert_eq!(answered(&image, page_length, work_length), page_refused(22, 0));
            }
        }
    }
    for work_length in [WORK_WORDS, WORK_WORDS + 1, 3 * WORK_WORDS] {
        for page_length in [0, 61, 62, 1_000] {
            assert_eq!(answered(&[], page_length, work_length), page_refused(1, 0));
            assert_eq!(answered(&no_tree, page_length, work_length), page_refused(3, 1));
            assert_eq!(answered(&ill_typed, page_length, work_length), page_refused(11, 0));
        }
        assert_eq!(answered(&truth(), 0, work_length), page_refused(41, 0));
        assert_eq!(answered(&truth(), 61, work_length), page_refused(41, 0));
        assert_eq!(answered(&truth(), 62, work_length), Ok(()));
    }
}

/// Each refusal of the image, with its place, as the checker has it; whether the page would
/// be long enough or not.
#[test]
fn the_images_refusals() {
    for (number, place, image) in refused_images() {
        for page_length in [0, 1, 31, 70_000] {
            let refused = page_refused(number, place);
            assert_eq!(answered(&image, page_length, WORK_WORDS), refused, "{number}");
        }
        assert_eq!(checked(&image), answer_refused(number, place), "{number}");
    }
}

/// Every image that the checker passes has a page; every other is refused alike.
#[test]
fn as_the_checker_says() {
    for image in [image(2, factorial()), truth()] {
        for place in 2..image.len() {
            for word in [0, 1, 3, 15, 20, 24, 25, 31, 64] {
                let mut changed = image.clone();
                changed[place] = word;
                let answer = answered(&changed, 31 * image[0] as usize, WORK_WORDS);
                assert_eq!(answer.err(), checked(&changed).refusal());
            }
        }
    }
}

/// Every length below 31 bytes a node is 41; from there on the lines stand in front, and the
/// bytes beyond them stay.
#[test]
fn every_length_of_a_page() {
    for length in 0..=200 {
        let before = marked(length);
        let (answer, after) = page_over(&truth(), &before, WORK_WORDS);
        if length < 62 {
            assert_eq!((answer, after), (page_refused(41, 0), before), "{length} bytes");
        } else {
            let expected = [LINES.as_bytes(), &before[62..]].concat();
            assert_eq!((answer, after), (Ok(()), expected), "{length} bytes");
        }
    }
}

/// One byte short, exact, and one byte longer, for trees of many sizes.
#[test]
fn around_31_bytes_a_node() {
    for nodes in 1..=64 {
        let image = image(0, (1..nodes).fold(boo(true), |operand, _| not(operand)));
        assert_eq!(answered(&image, 31 * nodes - 1, WORK_WORDS), page_refused(41, 0));
        let lines = paged(&image);
        assert_eq!(lines.len(), 31 * nodes);
        let before = marked(31 * nodes + 1);
        let (answer, after) = page_over(&image, &before, WORK_WORDS);
        assert_eq!(answer, Ok(()));
        assert_eq!(after[..31 * nodes], *lines.as_bytes());
        assert_eq!(after[31 * nodes..], before[31 * nodes..]);
    }
}

/// A page of no byte is long enough, and every other is kept whole.
#[test]
fn no_routine_keeps_every_page() {
    for registers in 0..=16 {
        for length in [0, 1, 30, 31, 32, 1_000] {
            let before = marked(length);
            let kept = page_over(&[0, registers], &before, WORK_WORDS);
            assert_eq!(kept, (Ok(()), before), "{length} bytes");
        }
    }
}

/// What the page held before shows nowhere in its lines.
#[test]
fn what_the_page_held_does_not_matter() {
    for byte in [0, b'\n', b' ', b'0', b'9', b'N', 127, 255] {
        let expected = [LINES.as_bytes(), &[byte; 9]].concat();
        assert_eq!(page_over(&truth(), &[byte; 62 + 9], WORK_WORDS), (Ok(()), expected));
    }
}
