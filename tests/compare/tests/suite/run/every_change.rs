//! Every change of one word in the paper's images and one with Conds, run: what still
//! passes is run by other rules than the image before.

use crate::helpers::{agreed_run, images_to_change, with_starts};
use second::generate::random::Random;

/// Enough for the paper's runs; what has become endless is left there.
const BUDGET: u64 = 500;

#[test]
fn of_one_word() {
    let random = &mut Random::new(1);
    let further = [64, 65, 66, 128, 512, 575, 2_000, 1 << 31, u32::MAX];
    let mut made_steps = 0;
    for image in images_to_change() {
        for index in 0..image.len() {
            for word in (0..46).chain([63]).chain(further) {
                let mut changed = image.clone();
                changed[index] = word;
                let starts = vec![3; changed[1].min(16) as usize];
                let mut case = with_starts(changed, &starts);
                case.budget = BUDGET;
                made_steps += u32::from(agreed_run(&case, random).reply.steps > 0);
            }
        }
    }
    assert!(made_steps > 1_000, "{made_steps}");
}
