//! An image for each refusal of the image's own, with the refusal and its place.

use second::build::*;
use second::tree::*;

/// Refusal, place, image.
pub fn refused_images() -> Vec<(u32, Place, Vec<u32>)> {
    let set = || assign(0, num(1));
    let unnamed = || block(bind(1, num(0)), set());
    let deep = (0..64).fold(boo(true), |operand, _| not(operand));
    vec![
        (1, 0, vec![1]),
        (1, 0, vec![1, 0, 1]),
        (1, 0, vec![0, 0, 1]),
        (2, 0, vec![2_001, 0]),
        (2, 0, vec![0, 17]),
        (3, 0, vec![1, 0, 99, 0]),
        (4, 0, vec![1, 0, 2, 2]),
        (5, 1, vec![1, 0, 15, 0]),
        (5, 1, vec![2, 0, 1, 1, 0, 0]),
        (6, 64, image(0, deep)),
        (10, 2, image(1, cseq(assign(0, id(5)), set()))),
        (11, 0, image(1, repeat(num(1), set()))),
        (11, 0, image(1, cond(num(1), set(), set()))),
        (12, 4, image(1, blk(bind_abs(1, &[(2, 0), (2, 0)], unnamed()), set()))),
        (13, 3, image(1, blk(bind(1, num(0)), assign(1, num(0))))),
        (14, 3, image(1, blk(bind(1, num(0)), call(1, vec![])))),
    ]
}
