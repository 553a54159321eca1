//! Every change of one word in the paper's images and one with Conds, and every image with
//! one node taken out, doubled or moved; each in a lent page as long as its lines and in one a
//! byte shorter.

use crate::changes;
use crate::helpers::images_to_change;
use compare::inputs::random_bytes;
use compare::page::{self, LINE};
use second::engine::WORK_WORDS;
use second::generate::random::Random;
use second::kinds::MOST_NODES;

fn agreed_pages(image: &[u32], random: &mut Random) {
    let lines = LINE * image[0].min(MOST_NODES) as usize;
    for length in [lines, lines.saturating_sub(1)] {
        let before = random_bytes(length, random);
        page::compare(image, &before, WORK_WORDS, random)
            .unwrap_or_else(|difference| panic!("{difference}"));
    }
}

#[test]
fn of_one_word() {
    let random = &mut Random::new(1);
    for image in images_to_change() {
        for changed in changes::of_one_word(&image) {
            agreed_pages(&changed, random);
        }
    }
}

#[test]
fn of_the_nodes_in_their_order() {
    let random = &mut Random::new(2);
    for image in images_to_change() {
        for changed in changes::of_the_nodes_in_their_order(&image) {
            agreed_pages(&changed, random);
        }
    }
}
