//! Lists of every two lengths, and 22, the image's refusals, 20, 42, 43, 40, 33 to 36 and 44 in
//! this order: each with and without what would come behind it.

use compare::ranges::{self, Lists};
use second::build::*;
use second::engine::WORK_WORDS;
use second::generate::random::Random;
use second::generate::steps::of_steps;
use second::tree::Command;

/// The refusal's number or 0 that both give.
fn refusal(image: &[u32], lists: &Lists, work_length: usize, random: &mut Random) -> u32 {
    ranges::compare(image, lists, work_length, random)
        .unwrap_or_else(|difference| panic!("{difference}"))
        .refused()
}

/// So many of each, the lowest at 5 and the highest at 9.
fn lists(lowest: usize, highest: usize) -> Lists {
    Lists { lowest: vec![5; lowest], highest: vec![9; highest] }
}

#[test]
fn lists_of_every_two_lengths() {
    let random = &mut Random::new(1);
    for registers in [0, 1, 2, 5, 15, 16] {
        let set = |_| assign(0, num(1));
        let image = match registers {
            0 => image(0, num(1)),
            _ => image(registers as u32, commands((0..3).map(set).collect())),
        };
        for lowest in 0..=18 {
            for highest in 0..=18 {
                let fits = lowest == registers && highest == registers;
                let expected = if fits { 0 } else { 20 };
                let found = refusal(&image, &lists(lowest, highest), WORK_WORDS, random);
                assert_eq!(found, expected, "{registers} registers, {lowest} and {highest}");
            }
        }
    }
}

#[test]
fn in_the_order_of_the_refusals() {
    let random = &mut Random::new(2);
    let set = || assign(0, num(1));
    let ten = |cells: bool| {
        let local = |name| if cells { bind_ref(name, num(0)) } else { bind(name, num(0)) };
        declarations((10..20).map(local).collect())
    };
    let blocks = |count: usize, cells, inner| {
        (0..count / 10).fold(inner, |command, _| blk(ten(cells), command))
    };
    let unsafe_one = || assign(0, div(num(1), num(0)));
    let looped = |command| cseq(command, repeat(boo(false), set()));
    let long = |command| cseq(command, of_steps(1_000_000));
    let roots: [(u32, Command); 8] = [
        (0, set()),
        (44, unsafe_one()),
        (34, blocks(520, false, unsafe_one())),
        (33, blocks(260, true, unsafe_one())),
        (33, blocks(260, false, blocks(260, true, unsafe_one()))),
        (40, long(unsafe_one())),
        (40, long(blocks(260, true, unsafe_one()))),
        (43, looped(long(blocks(260, true, unsafe_one())))),
    ];
    for (number, root) in roots {
        let image = image(1, root);
        for work_length in [0, WORK_WORDS - 1] {
            for before in [lists(1, 1), lists(0, 0)] {
                assert_eq!(refusal(&image, &before, work_length, random), 22);
            }
        }
        for work_length in [WORK_WORDS, WORK_WORDS + 1] {
            assert_eq!(refusal(&image, &lists(1, 1), work_length, random), number);
            let crossed = Lists { lowest: vec![9], highest: vec![5] };
            assert_eq!(refusal(&image, &crossed, work_length, random), 42);
            for (lowest, highest) in [(0, 0), (0, 1), (1, 0), (2, 1), (1, 2), (2, 2)] {
                let before = lists(lowest, highest);
                assert_eq!(refusal(&image, &before, work_length, random), 20);
            }
            let mut unbound = image.clone();
            let place = 2 + image[0] as usize;
            // Another kind at the root: no tree.
            unbound[2] = 99;
            assert_eq!(refusal(&unbound, &lists(0, 2), work_length, random), 3);
            unbound[2] = image[2];
            unbound[place] = 64;
            assert_eq!(refusal(&unbound, &crossed, work_length, random), 4);
        }
    }
}
