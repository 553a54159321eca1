//! Every change of one word in the paper's images and in some with Conds, functions and
//! locations, and every image with one node taken out, doubled or moved.

use crate::changes;
use crate::helpers::*;
use compare::ranges::{self, Lists};
use second::build::*;
use second::carried::Range;
use second::engine::WORK_WORDS;
use second::generate::random::Random;
use second::kinds::MOST_REGISTERS;

/// Conds whose tests may be both in a function of all sorts of Formals, in one another, and
/// cells of truths and locations.
fn choices() -> Vec<u32> {
    let open = || lt(id(0), num(5));
    let body = block(
        bind_ref(6, id(3)),
        cond(
            id(6),
            assign(4, sum(id(4), id(2))),
            cond(open(), assign(6, boo(true)), assign(4, id(2))),
        ),
    );
    let function = bind_abs(1, &[(2, 0), (3, 1), (4, 2)], body);
    let names = dseq(function, dseq(bind_ref(7, open()), bind_ref(8, deref(0))));
    let calls = call(1, vec![div(num(100), num(7)), id(7), deref(0)]);
    let tail = cond(and(id(7), not(open())), assign(0, valref(8)), assign(7, eq(id(7), open())));
    image(1, blk(names, cseq(calls, tail)))
}

fn images() -> Vec<Vec<u32>> {
    images_to_change().into_iter().chain([choices()]).collect()
}

fn agreed_ranges(image: &[u32], random: &mut Random) {
    let count = image.get(1).map_or(0, |registers| (*registers).min(MOST_REGISTERS)) as usize;
    for range in [Range::new(3, 3), Range::new(-2, 9)] {
        let before = Lists::of(&vec![range; count]);
        ranges::compare(image, &before, WORK_WORDS, random)
            .unwrap_or_else(|difference| panic!("{difference}"));
    }
}

#[test]
fn of_one_word() {
    let random = &mut Random::new(1);
    for image in images() {
        for changed in changes::of_one_word(&image) {
            agreed_ranges(&changed, random);
        }
    }
}

#[test]
fn of_the_nodes_in_their_order() {
    let random = &mut Random::new(2);
    for image in images() {
        for changed in changes::of_the_nodes_in_their_order(&image) {
            agreed_ranges(&changed, random);
        }
    }
}
