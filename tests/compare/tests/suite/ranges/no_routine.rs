//! Images with no node, as of a slot with no routine, and images near them: the ends are the
//! starts, whatever they are.

use crate::helpers::without_nodes;
use compare::ranges::{self, Lists};
use second::carried::Range;
use second::generate::random::Random;
use second::generate::starts::starts;
use second::Refusal;

#[test]
fn of_every_length_and_every_r() {
    let random = &mut Random::new(1);
    for registers in (0..=17).chain([18, 256, 1 << 31, u32::MAX]) {
        for count in 0..=4 {
            let image = without_nodes(registers, count, 1);
            for length in 0..=17 {
                for work_length in [8_191, 8_192] {
                    let limits = starts(random, length);
                    let crossed = limits.iter().any(|range| range.lowest > range.highest);
                    let expected = match (work_length, count, registers) {
                        (8_191, ..) => Err(22),
                        (_, 0 | 1, _) => Err(1),
                        (_, _, 17..) => Err(2),
                        (_, 2, _) if registers as usize != length => Err(20),
                        (_, 2, _) if crossed => Err(42),
                        (_, 2, _) => Ok(()),
                        _ => Err(1),
                    };
                    let before = Lists::of(&limits);
                    let ranged = ranges::compare(&image, &before, work_length, random)
                        .unwrap_or_else(|difference| panic!("{difference}"));
                    assert_eq!(ranged.answer, expected.map_err(Refusal::whole), "{image:?}");
                    assert_eq!(ranged.lists, before);
                }
            }
        }
    }
}

#[test]
fn all_integers() {
    let random = &mut Random::new(2);
    for (lowest, highest) in [(i64::MIN, i64::MAX), (0, 0), (i64::MIN, i64::MIN), (-1, i64::MAX)] {
        let before = Lists::of(&[Range::new(lowest, highest); 16]);
        let ranged = ranges::compare(&[0, 16], &before, 8_192, random).expect("no difference");
        assert_eq!((ranged.answer, ranged.lists), (Ok(()), before));
    }
}
