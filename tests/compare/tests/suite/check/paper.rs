//! What the paper says of the checker, in its own figures: the engine's answer
//! is the second interpreter's, and that is the one written here.

use crate::helpers::*;
use second::build::*;
use second::encode;
use second::engine::Answer;
use second::generate::limits::{with_depth, with_nodes};
use second::generate::random::Random;
use second::tree::Expression;

/// The answer that both give to words.
fn words(image: &[u32]) -> Answer {
    agreed(image, &mut Random::new(1))
}

/// Nots above a Boo, so many nodes in all and as deep.
fn nots(depth: usize) -> Expression {
    (1..depth).fold(boo(true), |operand, _| not(operand))
}

#[test]
fn cases_a_to_l() {
    for (case, image, answer) in papers_images() {
        assert_eq!(words(&image), answer, "case {case}");
    }
}

#[test]
fn the_calculator_is_the_papers_words() {
    assert_eq!(image(0, mul(num(5), sum(num(3), num(2)))), CALCULATOR);
}

#[test]
fn the_roots_code_or_command() {
    assert_eq!(agreed_tree(0, num(u32::MAX)), Answer::Code(0));
    assert_eq!(agreed_tree(0, eq(num(1), num(2))), Answer::Code(1));
    assert_eq!(agreed_tree(16, deref(15)), Answer::Code(2));
    assert_eq!(agreed_tree(16, id(15)), Answer::Code(0));
    assert_eq!(agreed_tree(16, id(16)), refused(10, 0));
    assert_eq!(agreed_tree(2, factorial()), Answer::Command);
    assert_eq!(agreed_tree(2, absent()), Answer::Command);
}

#[test]
fn nodes_2000_may_pass_and_2001_is_2() {
    assert_eq!(words(&encode(&with_nodes(1_999))), Answer::Command);
    assert_eq!(words(&encode(&with_nodes(2_000))), Answer::Command);
    assert_eq!(words(&encode(&with_nodes(2_001))), refused(2, 0));
}

#[test]
fn depth_64_may_pass_and_65_is_6() {
    assert_eq!(agreed_tree(0, nots(64)), Answer::Code(1));
    assert_eq!(agreed_tree(0, nots(65)), refused(6, 64));
    let random = &mut Random::new(5);
    for _ in 0..300 {
        assert_eq!(words(&encode(&with_depth(random, 64))), Answer::Command);
        let answer = words(&encode(&with_depth(random, 65)));
        assert_eq!(answer.refusal().map(|refusal| refusal.number), Some(6));
    }
}

#[test]
fn registers_16_may_pass_and_17_is_2() {
    assert_eq!(words(&[1, 16, 1, 0]), Answer::Code(0));
    assert_eq!(words(&[1, 17, 1, 0]), refused(2, 0));
    assert_eq!(words(&[1, u32::MAX, 1, 0]), refused(2, 0));
}

#[test]
fn fewer_than_two_words_is_1() {
    assert_eq!(words(&[]), refused(1, 0));
    for word in [0, 1, 2, 2_000, 2_001, 1 << 31, u32::MAX] {
        assert_eq!(words(&[word]), refused(1, 0));
    }
}

#[test]
fn counts_come_before_the_length() {
    for nodes in [2_001, 1 << 31, u32::MAX] {
        assert_eq!(words(&[nodes, 0]), refused(2, 0));
        assert_eq!(words(&[nodes, 0, 1, 0]), refused(2, 0));
    }
    assert_eq!(words(&[0, 17]), refused(2, 0));
    assert_eq!(words(&[0, 17, 1, 0]), refused(2, 0));
    assert_eq!(words(&[0, 0, 1, 0]), refused(1, 0));
    assert_eq!(words(&[1, 0]), refused(1, 0));
    assert_eq!(words(&[2_000, 16]), refused(1, 0));
    assert_eq!(words(&[2_000, 17]), refused(2, 0));
}

/// Every length but 2 + 2n, for a short image and for the greatest n.
#[test]
fn wrong_lengths_are_1() {
    let random = &mut Random::new(2);
    let largest = encode(&with_nodes(2_000));
    for (image, lengths) in [(CALCULATOR.to_vec(), 2..40), (largest, 3_990..4_020)] {
        let right = image.len();
        for length in lengths.filter(|length| *length != right) {
            let mut image = image.clone();
            image.resize(length, 0);
            assert_eq!(agreed(&image, random), refused(1, 0), "{length} words");
        }
        assert_eq!(agreed(&image, random).refusal(), None);
    }
}

/// Lengths that are 2 + 2n only where 32 bits, or fewer, are counted in.
#[test]
fn a_great_n_is_2_whatever_the_length() {
    for nodes in [1 << 15, 1 << 16, (1 << 16) + 5, 1 << 30, (1 << 31) + 5, u32::MAX - 1] {
        let mut image = CALCULATOR.to_vec();
        image[0] = nodes;
        assert_eq!(words(&image), refused(2, 0), "{nodes} nodes");
    }
}

/// An image far longer than any that passes.
#[test]
fn a_long_slice_is_1() {
    let mut image = vec![0; 1 << 20];
    image[..12].copy_from_slice(&CALCULATOR);
    assert_eq!(words(&image), refused(1, 0));
}
