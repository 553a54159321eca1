//! Replies in the engine's numbers, which are asked of nobody: each figure in its place.

use compare::engine::{self, NeedsReply};
use second::build::*;
use second::engine::WORK_WORDS;
use second::tree::*;

/// The engine's reply; the first 8,192 of the marked work words become 0.
fn reply(image: &[u32]) -> NeedsReply {
    let marked: Vec<u64> = (1..=WORK_WORDS as u64 + 8).collect();
    let mut work = marked.clone();
    let reply = engine::needs(image, &mut work);
    assert!(work[..WORK_WORDS].iter().all(|word| *word == 0));
    assert_eq!(work[WORK_WORDS..], marked[WORK_WORDS..]);
    reply
}

/// Without a refusal, with figures in the order of the reply.
fn figures([control, values, cells, bindings, steps, open]: [u64; 6]) -> NeedsReply {
    NeedsReply { refusal: 0, place: 0, control, values, cells, bindings, steps, open }
}

fn refused(refusal: u64, place: u64) -> NeedsReply {
    NeedsReply { refusal, place, ..NeedsReply::default() }
}

#[test]
fn no_routine() {
    for registers in 0..=16 {
        let count = u64::from(registers);
        assert_eq!(reply(&[0, registers]), figures([0, 0, count, count, 0, 0]));
    }
}

#[test]
fn each_figure_in_its_place() {
    // 5 × (3 + 2).
    assert_eq!(reply(&[5, 0, 6, 1, 4, 1, 1, 0, 5, 0, 3, 2]), figures([4, 3, 0, 0, 7, 0]));
    let names = dseq(bind_ref(1, num(1)), bind(2, id(1)));
    let block = || blk(names.clone(), assign(0, num(0)));
    assert_eq!(reply(&image(1, block())), figures([9, 5, 2, 3, 17, 0]));
    assert_eq!(reply(&image(1, repeat(boo(true), block()))), figures([10, 5, 2, 3, 0, 1]));
    assert_eq!(reply(&image(2, factorial())), figures([6, 3, 2, 2, 0, 1]));
}

#[test]
fn refusals_have_no_figures() {
    assert_eq!(reply(&[]), refused(1, 0));
    assert_eq!(reply(&[0, 17]), refused(2, 0));
    assert_eq!(reply(&[1, 0, 99, 0]), refused(3, 0));
    let unbound = cseq(repeat(boo(true), assign(0, num(1))), assign(0, id(9)));
    assert_eq!(reply(&image(1, unbound)), refused(10, 6));
    let once = |name: Name| call(name, vec![]);
    let function = |name: Name| {
        let twice = || cseq(once(name - 1), once(name - 1));
        let command = if name == 1 { assign(0, num(1)) } else { twice() };
        bind_abs(name, &[], block(bind(63, num(0)), command))
    };
    let doubling = (1..=40).rev().fold(once(40), |command, name| blk(function(name), command));
    assert_eq!(reply(&image(1, doubling.clone())), refused(40, 0));
    // With a Loop behind it: the figures are those of the paper's rules.
    let opened = cseq(doubling, repeat(boo(false), assign(0, num(1))));
    assert_eq!(reply(&image(1, opened)), figures([4 * 40 + 4, 6 * 40 + 2, 1, 81, 0, 1]));
}

#[test]
fn too_few_work_words_are_22() {
    for length in [0, 1, WORK_WORDS - 1] {
        let mut work = vec![7; length];
        assert_eq!(engine::needs(&[0, 3], &mut work), refused(22, 0));
        assert_eq!(work, vec![7; length]);
    }
}
