//! Every change of one word in the paper's images, one with Conds and one with functions in
//! functions, and every image with one node taken out, doubled or moved.

use crate::changes;
use crate::helpers::*;
use compare::needs;
use second::build::*;
use second::engine::WORK_WORDS;
use second::generate::random::Random;

/// Functions that call functions, one hidden by another, one idle with a Loop, and a Cond.
fn functions() -> Vec<u32> {
    let set = |value| assign(0, value);
    let one = bind_abs(1, &[(2, 0), (3, 1)], block(bind_ref(4, id(2)), set(id(4))));
    let idle = bind_abs(5, &[], block(bind(4, num(1)), repeat(boo(true), set(num(1)))));
    let calls = || call(1, vec![sum(id(0), num(1)), not(boo(true))]);
    let two = bind_abs(6, &[], block(bind(4, num(2)), cond(boo(true), calls(), set(num(3)))));
    let hidden = blk(bind_abs(1, &[], block(bind(4, num(3)), call(6, vec![]))), call(1, vec![]));
    image(1, blk(one, blk(dseq(idle, two), cseq(hidden, calls()))))
}

fn images() -> Vec<Vec<u32>> {
    images_to_change().into_iter().chain([functions()]).collect()
}

fn agreed_needs(image: &[u32], random: &mut Random) {
    needs::compare(image, WORK_WORDS, random).unwrap_or_else(|difference| panic!("{difference}"));
}

#[test]
fn of_one_word() {
    let random = &mut Random::new(1);
    for image in images() {
        for changed in changes::of_one_word(&image) {
            agreed_needs(&changed, random);
        }
    }
}

#[test]
fn of_the_nodes_in_their_order() {
    let random = &mut Random::new(2);
    for image in images() {
        for changed in changes::of_the_nodes_in_their_order(&image) {
            agreed_needs(&changed, random);
        }
    }
}
