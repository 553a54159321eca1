//! What every call is lent, an image of words or bytes and work words of junk, and what
//! must be there after it.

use crate::guarded::{Guarded, Junk};
use second::engine::settle_work;
use second::generate::random::Random;
use second::Refusal;

pub struct Lent<T> {
    pub image: Guarded<T>,
    pub work: Guarded<u64>,
}

impl<T: Junk> Lent<T> {
    pub fn new(image: &[T], work_length: usize, random: &mut Random) -> Lent<T> {
        Lent { image: Guarded::holding(image, random), work: Guarded::junk(work_length, random) }
    }

    /// What is wrong after a call that must have been refused so, or not refused: a word of
    /// the image, a work word, a word beside them.
    pub fn faults(&self, refusal: Option<Refusal>) -> Vec<String> {
        let mut work_after = self.work.made().to_vec();
        settle_work(&mut work_after, refusal);
        let image = self.image.fault("the image", self.image.made());
        image.into_iter().chain(self.work.fault("the work slice", &work_after)).collect()
    }
}

/// What is wrong with a reply that is not the one it must be, both in words.
pub fn replies(expected: String, reply: String) -> Vec<String> {
    let second = format!("the second interpreter says {expected}");
    vec![second, format!("the engine says             {reply}")]
}
