//! How often each answer came up: says whether a comparison meant anything.

use std::collections::BTreeMap;

#[derive(Default)]
pub struct Tally {
    /// By the answer in words, in the order of the refusals' numbers.
    counts: BTreeMap<(u32, String), u64>,
}

impl Tally {
    /// Counts an answer: its refusal, or 0, and the answer in words.
    pub fn count(&mut self, refusal: u32, words: String) {
        *self.counts.entry((refusal, words)).or_default() += 1;
    }

    pub fn calls(&self) -> u64 {
        self.counts.values().sum()
    }

    /// How often a refusal came up; 0 counts what passed.
    pub fn refused(&self, number: u32) -> u64 {
        let counts = self.counts.iter().filter(|((refusal, _), _)| *refusal == number);
        counts.map(|(_, count)| count).sum()
    }

    /// How often an answer came up in these words.
    pub fn said(&self, words: &str) -> u64 {
        let counts = self.counts.iter().filter(|((_, answer), _)| answer == words);
        counts.map(|(_, count)| count).sum()
    }

    /// One line an answer.
    pub fn text(&self) -> String {
        self.counts.iter().map(|((_, answer), count)| format!("{count:>10}  {answer}\n")).collect()
    }
}
