//! Every change of one word in the paper's images and one with Conds, every image with
//! one node taken out, doubled or moved, and every beginning of an image.

use crate::changes;
use crate::helpers::{agreed, images_to_change};
use second::generate::random::Random;

#[test]
fn of_one_word() {
    let random = &mut Random::new(1);
    for image in images_to_change() {
        for changed in changes::of_one_word(&image) {
            agreed(&changed, random);
        }
    }
}

#[test]
fn of_the_nodes_in_their_order() {
    let random = &mut Random::new(2);
    for image in images_to_change() {
        for changed in changes::of_the_nodes_in_their_order(&image) {
            agreed(&changed, random);
        }
    }
}

#[test]
fn of_the_length() {
    let random = &mut Random::new(3);
    for image in images_to_change() {
        for length in 0..image.len() + 5 {
            let mut words = image.clone();
            words.resize(length, 1);
            agreed(&words, random);
            if let Some(first) = words.first_mut() {
                *first = (length as u32).saturating_sub(2) / 2;
                agreed(&words, random);
            }
        }
    }
}
