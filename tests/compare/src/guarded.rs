//! A buffer for the engine, of words or bytes, with guards on both sides, which no
//! call may change. What a slice must not be read for is junk, another in every
//! call, so that an answer that hangs on it shows itself.

use second::generate::random::Random;
use std::fmt::LowerHex;
use std::hint::black_box;
use std::ops::Range;
use std::sync::Once;

/// Guards that stand on each side, at least.
const GUARDS: usize = 33;
/// Fewer than so many more stand before the slice, by chance, so that it begins at
/// every place between two 64-bit words.
const MORE_BEFORE: usize = 8;

/// How much freed memory the C library keeps for the next buffers: it takes the
/// size of a large block that was freed for a measure. Otherwise it gives a slice
/// back to the system after each call, which takes longer than the call.
const KEPT_BYTES: usize = 4 << 20;
static KEPT: Once = Once::new();

/// A word or a byte that can be made of any bits.
pub trait Junk: Copy + Eq + LowerHex {
    /// What one is called.
    const NAME: &'static str;

    fn of_bits(bits: u64) -> Self;
}

impl Junk for u8 {
    const NAME: &'static str = "byte";

    /// Never 0, so that clearing it shows.
    fn of_bits(bits: u64) -> u8 {
        (bits >> 56) as u8 | 1
    }
}

impl Junk for u32 {
    const NAME: &'static str = "word";

    /// Half of the words are small, as those of an image.
    fn of_bits(bits: u64) -> u32 {
        let (high, low) = ((bits >> 32) as u32, bits as u32);
        if low & 1 == 0 {
            high % 45
        } else {
            high
        }
    }
}

impl Junk for u64 {
    const NAME: &'static str = "word";

    /// Never 0, so that clearing it shows.
    fn of_bits(bits: u64) -> u64 {
        bits | 1
    }
}

impl Junk for i64 {
    const NAME: &'static str = "word";

    /// Never 0, so that clearing it shows.
    fn of_bits(bits: u64) -> i64 {
        u64::of_bits(bits) as i64
    }
}

pub struct Guarded<T> {
    /// The slice between its guards, now and as it was made.
    now: Vec<T>,
    made: Vec<T>,
    /// Where the slice is in them.
    place: Range<usize>,
}

impl<T: Junk> Guarded<T> {
    /// A slice that holds these words or bytes.
    pub fn holding(contents: &[T], random: &mut Random) -> Guarded<T> {
        let mut guarded = Guarded::junk(contents.len(), random);
        guarded.slice_mut().copy_from_slice(contents);
        guarded.made.clone_from(&guarded.now);
        guarded
    }

    /// A slice of so many words or bytes of junk.
    pub fn junk(length: usize, random: &mut Random) -> Guarded<T> {
        KEPT.call_once(|| drop(black_box(Vec::<u8>::with_capacity(KEPT_BYTES))));
        // Long slices are made often; a sum a word is quick.
        let (first, step) = (random.word(), random.word());
        let bits = |index: usize| first.wrapping_add(step.wrapping_mul(index as u64));
        let start = GUARDS + first as usize % MORE_BEFORE;
        let end = start + length;
        let made: Vec<T> = (0..end + GUARDS).map(|index| T::of_bits(bits(index))).collect();
        Guarded { now: made.clone(), made, place: start..end }
    }

    pub fn slice(&self) -> &[T] {
        &self.now[self.place.clone()]
    }

    pub fn slice_mut(&mut self) -> &mut [T] {
        &mut self.now[self.place.clone()]
    }

    /// What the slice held when it was made.
    pub fn made(&self) -> &[T] {
        &self.made[self.place.clone()]
    }

    /// What is wrong with the slice if it must hold this now, or with its guards.
    pub fn fault(&self, what: &str, expected: &[T]) -> Option<String> {
        // Foreign code had the pointer; the guards are read anew.
        let now = black_box(&self.now);
        let Range { start, end } = self.place;
        let parts = [
            ("", &now[start..end], expected),
            (" before the slice", &now[..start], &self.made[..start]),
            (" behind the slice", &now[end..], &self.made[end..]),
        ];
        // Slices that are equal, as nearly all are, are quickly found so.
        parts.into_iter().filter(|(_, now, must)| now != must).find_map(|(part, now, must)| {
            let index = (0..must.len()).find(|index| now[*index] != must[*index])?;
            let count = (index..must.len()).filter(|index| now[*index] != must[*index]).count();
            let (name, is, must_be) = (T::NAME, now[index], must[index]);
            Some(format!(
                "{what}: {name} {index}{part} is {is:x} and must be {must_be:x}; \
                 {name}s that differ: {count}"
            ))
        })
    }
}

#[cfg(test)]
mod tests {
    use super::*;

    #[test]
    fn untouched_words_are_no_fault() {
        let random = &mut Random::new(1);
        for length in [0, 1, 100] {
            let buffer: Guarded<u64> = Guarded::junk(length, random);
            assert_eq!(buffer.slice().len(), length);
            assert_eq!(buffer.fault("work", buffer.made()), None);
        }
        let image: Guarded<u32> = Guarded::holding(&[1, 2, 3], random);
        assert_eq!(image.slice(), [1, 2, 3]);
        assert_eq!(image.made(), [1, 2, 3]);
    }

    #[test]
    fn each_changed_word_is_a_fault() {
        let random = &mut Random::new(2);
        for length in [0, 1, 5] {
            let mut buffer: Guarded<u64> = Guarded::junk(length, random);
            for index in 0..buffer.now.len() {
                buffer.now.clone_from(&buffer.made);
                buffer.now[index] ^= 1 << 63;
                let fault = buffer.fault("work", buffer.made()).expect("a fault");
                assert_eq!(fault.contains("before"), index < buffer.place.start, "{fault}");
                assert_eq!(fault.contains("behind"), index >= buffer.place.end, "{fault}");
                assert!(fault.ends_with("; words that differ: 1"), "{fault}");
            }
        }
    }

    #[test]
    fn bytes_stand_at_every_place_and_are_called_so() {
        let random = &mut Random::new(4);
        let mut places = [false; MORE_BEFORE];
        for _ in 0..100 {
            let mut bytes: Guarded<u8> = Guarded::holding(&[1, 2, 3], random);
            places[bytes.slice().as_ptr() as usize % MORE_BEFORE] = true;
            bytes.slice_mut()[1] = 0;
            let fault = bytes.fault("image", &[1, 2, 3]);
            let expected = "image: byte 1 is 0 and must be 2; bytes that differ: 1";
            assert_eq!(fault.as_deref(), Some(expected));
            for index in [bytes.place.start - 1, bytes.place.end] {
                bytes.now.clone_from(&bytes.made);
                bytes.now[index] = 0;
                let fault = bytes.fault("image", &[1, 2, 3]).expect("a fault");
                assert!(fault.contains(" the slice is 0 and must be "), "{fault}");
            }
        }
        assert_eq!(places, [true; MORE_BEFORE]);
    }

    #[test]
    fn the_first_of_many_words_is_named() {
        let random = &mut Random::new(3);
        let mut buffer: Guarded<u64> = Guarded::junk(10, random);
        buffer.slice_mut()[4..8].fill(0);
        let fault = buffer.fault("work", buffer.made()).expect("a fault");
        assert!(fault.starts_with("work: word 4 is 0 and must be "), "{fault}");
        assert!(fault.ends_with("; words that differ: 4"), "{fault}");
    }
}
