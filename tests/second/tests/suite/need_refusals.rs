//! The needs refused: 22, then the image, then 40; and no figures with any of them.

use crate::helpers::*;
use crate::refused_images::refused_images;
use second::build::*;
use second::engine::WORK_WORDS;
use second::needs::{Needs, Steps};
use second::tree::*;

const FEW: usize = WORK_WORDS - 1;

/// So many functions each of which calls the one before it twice.
fn doubling(count: Name) -> Command {
    let once = |name: Name| call(name, vec![]);
    let function = |name: Name| {
        let command =
            if name == 1 { assign(0, num(1)) } else { cseq(once(name - 1), once(name - 1)) };
        bind_abs(name, &[], block(bind(63, num(0)), command))
    };
    (1..=count).rev().fold(once(count), |command, name| blk(function(name), command))
}

/// A tree with more than a million steps; one that is refused for an unbound name behind
/// them, and one for its shape.
fn long() -> Vec<u32> {
    image(1, doubling(20))
}

fn ill_typed() -> Vec<u32> {
    image(1, cseq(doubling(20), assign(0, id(62))))
}

fn no_tree() -> Vec<u32> {
    let mut words = long();
    words[2] = 99;
    words
}

#[test]
fn first_22_then_the_image_then_40() {
    for length in [0, 1, FEW] {
        for image in [long(), ill_typed(), no_tree(), vec![], image(1, assign(0, num(1)))] {
            assert_eq!(needed_with(&image, length), needs_refused(22, 0));
        }
    }
    for length in [WORK_WORDS, WORK_WORDS + 1, 3 * WORK_WORDS] {
        assert_eq!(needed_with(&[], length), needs_refused(1, 0));
        assert_eq!(needed_with(&no_tree(), length), needs_refused(3, 0));
        let place = long()[0] + 2;
        assert_eq!(needed_with(&ill_typed(), length), needs_refused(10, place));
        assert_eq!(needed_with(&long(), length), needs_refused(40, 0));
        let set = image(1, assign(0, num(1)));
        assert_eq!(needed_with(&set, length), given(2, 2, 1, 1, 3));
    }
}

/// Each refusal of the image, with its place, as the checker has it.
#[test]
fn the_images_refusals() {
    for (number, place, image) in refused_images() {
        assert_eq!(needed(&image), needs_refused(number, place), "{number}");
        assert_eq!(checked(&image), answer_refused(number, place), "{number}");
    }
}

/// Every image that the checker passes has needs, or 40; every other is refused alike.
#[test]
fn as_the_checker_says() {
    for (image, open) in [(image(2, factorial()), true), (image(1, doubling(5)), false)] {
        let Needs::Figures(figures) = needed(&image) else { panic!("it passes") };
        assert_eq!(figures.steps == Steps::Open, open);
        for place in 2..image.len() {
            for word in [0, 1, 3, 20, 24, 31, 64] {
                let mut changed = image.clone();
                changed[place] = word;
                assert_eq!(needed(&changed).refusal(), checked(&changed).refusal());
            }
        }
    }
}
