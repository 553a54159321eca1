//! Images with no node, as of a slot with no routine, and images near them: every r up to
//! 17, every count of words up to 6, and work words on both sides of their limit.

use crate::helpers::*;
use compare::engine::{self, CheckReply};
use second::engine::{Answer, WORK_WORDS};
use second::generate::random::Random;

#[test]
fn of_every_length_and_every_r() {
    let random = &mut Random::new(1);
    for registers in (0..=17).chain([18, 256, 1 << 16, 1 << 31, u32::MAX]) {
        for count in 0..=6 {
            for behind in [0, 1, 20, u32::MAX] {
                let image = without_nodes(registers, count, behind);
                for work_length in [8_191, 8_192, 8_200] {
                    let expected = match (work_length, count, registers) {
                        (8_191, ..) => refused(22, 0),
                        (_, 0 | 1, _) => refused(1, 0),
                        (_, _, 17..) => refused(2, 0),
                        (_, 2, _) => Answer::Command,
                        _ => refused(1, 0),
                    };
                    let answer = agreed_at(&image, work_length, random);
                    assert_eq!(answer, expected, "{image:?}, work of {work_length} words");
                }
            }
        }
    }
}

/// In the engine's numbers, which are asked of nobody: the answer is that of a command,
/// and the first 8,192 of the marked work words become 0.
#[test]
fn a_command_in_the_engines_numbers() {
    let marked: Vec<u64> = (1..=8_200).collect();
    for registers in 0..=16 {
        let mut work = marked.clone();
        let reply = engine::check(&[0, registers], &mut work);
        assert_eq!(reply, CheckReply { refusal: 0, value: 8, place: 0 }, "r {registers}");
        assert!(work[..WORK_WORDS].iter().all(|word| *word == 0));
        assert_eq!(work[WORK_WORDS..], marked[WORK_WORDS..]);
    }
}
