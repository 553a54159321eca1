//! What is tested of every call that takes an image and work words alone.

use crate::helpers::*;
use compare::guarded::Guarded;
use second::build::*;
use second::encode;
use second::engine::WORK_WORDS;
use second::generate::limits::{near_a_limit, with_nodes};
use second::generate::random::Random;
use std::fmt::Debug;

/// A function in the engine's place.
pub type ImageCall<'a, Reply> = &'a dyn Fn(&[u32], &mut [u64]) -> Reply;

/// Slices of work words, too short and long enough.
pub const WORK_LENGTHS: [usize; 10] = [
    0,
    1,
    2,
    WORK_WORDS / 2,
    WORK_WORDS - 1,
    WORK_WORDS,
    WORK_WORDS + 1,
    WORK_WORDS + 1_000,
    3 * WORK_WORDS,
    1 << 16,
];

/// An image for each answer of the checker, and some for which many work words are used.
pub fn images() -> Vec<Vec<u32>> {
    let random = &mut Random::new(9);
    let mut all: Vec<_> = papers_images().into_iter().map(|(_, image, _)| image).collect();
    all.extend((0..20).map(|_| encode(&near_a_limit(random))));
    all.extend([
        vec![],
        vec![0, 16],
        vec![0, 17],
        vec![1, 0, 99, 0],
        vec![1, 0, 2, 2],
        vec![1, 0, 15, 0],
        image(0, (0..64).fold(boo(true), |operand, _| not(operand))),
        image(0, id(0)),
        image(0, sum(num(1), boo(true))),
        image(1, blk(bind(1, num(0)), call(1, vec![]))),
        image(1, blk(dseq(bind(1, num(0)), bind(1, num(0))), assign(0, num(0)))),
        encode(&with_nodes(2_000)),
    ]);
    all
}

/// Functions that reply as they must and are wrong about one work word are found out: `right`
/// is what they call, and `found` gives the text of the difference.
pub fn work_words_count<Reply>(
    right: ImageCall<Reply>,
    found: impl Fn(ImageCall<Reply>, &[u32], usize) -> String,
) {
    for index in [0, 1, WORK_WORDS / 2, WORK_WORDS - 1] {
        let leaves_one = |image: &[u32], work: &mut [u64]| {
            let word = work[index];
            let reply = right(image, work);
            work[index] = word;
            reply
        };
        let text = found(&leaves_one, &CALCULATOR, WORK_WORDS);
        assert!(text.contains(&format!("the work slice: word {index} is ")), "{text}");
        assert!(text.contains(" and must be 0; words that differ: 1"), "{text}");
    }
    for index in [WORK_WORDS, WORK_WORDS + 9] {
        let clears_one_more = |image: &[u32], work: &mut [u64]| {
            work[index] = 0;
            right(image, work)
        };
        let text = found(&clears_one_more, &CALCULATOR, WORK_WORDS + 10);
        assert!(text.contains(&format!("the work slice: word {index} is 0 and")), "{text}");
    }
    let clears_too_few = |image: &[u32], work: &mut [u64]| {
        work.fill(0);
        right(image, work)
    };
    let text = found(&clears_too_few, &CALCULATOR, WORK_WORDS - 1);
    assert!(text.contains("words that differ: 8191"), "{text}");
}

/// What an earlier call left, or anything else in the work words, changes no reply; neither do
/// words that are all 0 or all 1 bits.
pub fn contents_change_nothing<Reply: PartialEq + Debug>(
    call: impl Fn(&[u32], &mut [u64]) -> Reply,
    expected: impl IntoIterator<Item = (Reply, Vec<u32>)>,
) {
    let random = &mut Random::new(5);
    for (reply, image) in expected {
        for fill in [0, 1, u64::MAX, 1 << 63, u64::from(u32::MAX)] {
            let before = vec![fill; WORK_WORDS + 9];
            let mut after = before.clone();
            after[..WORK_WORDS].fill(0);
            let mut work = Guarded::holding(&before, random);
            for _ in 0..2 {
                assert_eq!(call(&image, work.slice_mut()), reply);
                assert_eq!(work.fault("the work slice", &after), None);
            }
        }
    }
}
