//! Images of every length and with every byte changed: what is no whole word, what
//! is too short, too long, or longer than the largest image.

use crate::helpers::*;
use compare::byte_calls::{ByteCall, LARGEST_IMAGE};
use second::build::*;
use second::encode;
use second::encode::bytes_of;
use second::generate::limits::with_nodes;
use second::generate::random::Random;

/// A call with as many registers as the image asks for, each 1.
fn call_of(image: &[u32]) -> ByteCall {
    let count = image[1].min(16) as usize;
    ByteCall::of(&with_starts(image.to_vec(), &vec![1; count]))
}

/// The refusals of this image, which must be alike for both calls.
fn refused_image(image: Vec<u8>, random: &mut Random) -> u32 {
    let call = ByteCall { image, ..call_of(&CALCULATOR) };
    let (checked, ran) = refused_on_bytes(&call, random);
    assert!(checked == ran || (checked, ran) == (0, 20), "{call:?}");
    checked
}

/// The paper's images are answered as on words.
#[test]
fn of_the_paper() {
    let random = &mut Random::new(1);
    for (case, image, answer) in papers_images() {
        let call = call_of(&image);
        assert_eq!(agreed_check_bytes(&call, random), answer, "case {case}");
        let on_words = agreed_run(&with_starts(image.clone(), &vec![1; image[1] as usize]), random);
        assert_eq!(agreed_run_bytes(&call, random).reply, on_words.reply, "case {case}");
    }
}

/// Every cut, every byte more, whatever the bytes that are added.
#[test]
fn of_every_length() {
    let random = &mut Random::new(2);
    for (case, image, _) in papers_images() {
        let whole = bytes_of(&image);
        for length in (0..whole.len()).chain(whole.len() + 1..whole.len() + 34) {
            for byte in [0, 1, 255] {
                let mut image = whole.clone();
                image.resize(length, byte);
                assert_eq!(refused_image(image, random), 1, "case {case}, {length} bytes");
            }
        }
    }
}

/// Every bit of every byte.
#[test]
fn of_every_change_of_a_bit() {
    let random = &mut Random::new(3);
    for (_, image, _) in papers_images() {
        let whole = call_of(&image);
        for bit in 0..8 * whole.image.len() {
            let mut call = whole.clone();
            call.image[bit / 8] ^= 1 << (bit % 8);
            call.budget = 500;
            refused_on_bytes(&call, random);
        }
    }
}

/// n and r near their limits, at lengths that fit them or do not.
#[test]
fn of_every_count() {
    let random = &mut Random::new(4);
    let nodes = [0, 1, 2, 1_999, 2_000, 2_001, 1 << 16, 1 << 29, (1 << 29) + 1, u32::MAX];
    for nodes in nodes {
        for registers in [0, 1, 15, 16, 17, 256, 1 << 29, u32::MAX] {
            let in_range = nodes <= 2_000 && registers <= 16;
            let fitting = 8 + 8 * u64::from(nodes);
            let near = (fitting - 8..fitting + 9).filter(|length| (8..20_000).contains(length));
            for length in near.chain([8, 15, 16, 17, 24]) {
                let mut image = bytes_of(&[nodes, registers]);
                image.resize(length as usize, 0);
                // Kind 0 at every node, if there is one.
                let expected = match (in_range, length == fitting) {
                    (false, _) => 2,
                    (true, false) => 1,
                    (true, true) if nodes == 0 => 0,
                    (true, true) => 3,
                };
                let refused = refused_image(image, random);
                assert_eq!(refused, expected, "n {nodes}, r {registers}, {length} bytes");
            }
        }
    }
}

/// The largest image passes; one byte more, and as many as one likes, do not.
#[test]
fn longer_than_the_largest() {
    let random = &mut Random::new(5);
    let largest = call_of(&encode(&with_nodes(2_000)));
    assert_eq!(largest.image.len(), LARGEST_IMAGE);
    assert_eq!(refused_on_bytes(&largest, random), (0, 0));
    let small = bytes_of(&image(1, assign(0, num(7))));
    for length in (1..=40).map(|more| LARGEST_IMAGE + more).chain([32_016, 1 << 16, 1 << 20]) {
        for (mut image, registers, expected) in [
            (largest.image.clone(), 1, 1),
            (small.clone(), 1, 1),
            (largest.image.clone(), 17, 2),
            (small.clone(), 17, 2),
            (bytes_of(&[2_001, 1]), 1, 2),
        ] {
            image.resize(length, 1);
            image[4] = registers;
            assert_eq!(refused_image(image, random), expected, "{length} bytes");
        }
    }
}

/// An image that is refused at a node has this node's place, whatever the registers.
#[test]
fn places_are_those_of_the_words() {
    let random = &mut Random::new(6);
    for depth in 0..=70 {
        let image = image(0, (0..depth).fold(boo(true), |operand, _| not(operand)));
        let mut call = call_of(&image);
        call.registers = vec![9; 13];
        let on_words = agreed(&image, random);
        assert_eq!(agreed_check_bytes(&call, random), on_words);
        let expected = if depth >= 64 { (6, 64) } else { (20, 0) };
        let refusal = agreed_run_bytes(&call, random).reply.refusal().expect("a refusal");
        assert_eq!((refusal.number, refusal.place), expected, "{depth} levels");
    }
}
