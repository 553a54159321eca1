//! Images with no node, as of a slot with no routine, and images near them: every r up to
//! 17, every count of words up to 6, pages from none on, and work words on both sides of
//! their limit. There is no line to write, so every page is kept whole.

use crate::helpers::without_nodes;
use compare::engine::{self, PageReply};
use compare::inputs::random_bytes;
use compare::page::{self, Paged};
use second::engine::WORK_WORDS;
use second::generate::random::Random;
use second::Refusal;

#[test]
fn of_every_length_and_every_r() {
    let random = &mut Random::new(1);
    for registers in (0..=17).chain([18, 256, 1 << 16, 1 << 31, u32::MAX]) {
        for count in 0..=6 {
            for behind in [0, 1, 20, u32::MAX] {
                let image = without_nodes(registers, count, behind);
                for (work_length, page_length) in
                    [(8_191, 0), (8_191, 31), (8_192, 0), (8_192, 1), (8_192, 31), (8_200, 100)]
                {
                    let expected = match (work_length, count, registers) {
                        (8_191, ..) => Err(22),
                        (_, 0 | 1, _) => Err(1),
                        (_, _, 17..) => Err(2),
                        (_, 2, _) => Ok(()),
                        _ => Err(1),
                    };
                    let before = random_bytes(page_length, random);
                    let kept = page::compare(&image, &before, work_length, random)
                        .unwrap_or_else(|difference| panic!("{difference}"));
                    let answer = expected.map_err(Refusal::whole);
                    assert_eq!(kept, Paged { answer, page: before }, "{image:?}");
                }
            }
        }
    }
}

/// In the engine's numbers, which are asked of nobody: no refusal, a page that is as it was,
/// and the first 8,192 of the marked work words become 0.
#[test]
fn a_page_in_the_engines_numbers() {
    let marked: Vec<u64> = (1..=8_200).collect();
    for registers in 0..=16 {
        for length in [0, 1, 31, 100] {
            let (mut work, mut page) = (marked.clone(), vec![b'#'; length]);
            let reply = engine::page(&[0, registers], &mut page, &mut work);
            assert_eq!(reply, PageReply { refusal: 0, place: 0 }, "r {registers}");
            assert_eq!(page, vec![b'#'; length]);
            assert!(work[..WORK_WORDS].iter().all(|word| *word == 0));
            assert_eq!(work[WORK_WORDS..], marked[WORK_WORDS..]);
        }
    }
}
