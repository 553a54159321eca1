//! One call of `pi_page`, held against the second interpreter: its reply, the whole lent page,
//! the image, the work words and every byte and word beside the slices.

use crate::difference::Difference;
use crate::engine::{self, PageReply};
use crate::guarded::Guarded;
use crate::lent::{replies, Lent};
use second::generate::random::Random;
use second::Refusal;

/// The bytes of a line.
pub const LINE: usize = 31;

/// What came of a call for a page.
#[derive(Clone, Debug, PartialEq, Eq)]
pub struct Paged {
    pub answer: Result<(), Refusal>,
    /// All bytes of the lent page after it.
    pub page: Vec<u8>,
}

/// The reply that says an answer.
pub fn reply_of(answer: Result<(), Refusal>) -> PageReply {
    match answer {
        Ok(()) => PageReply { refusal: 0, place: 0 },
        Err(Refusal { number, place }) => PageReply { refusal: number.into(), place: place.into() },
    }
}

/// An answer without its place: the refusal, or 0, and the answer in words.
pub fn in_words(answer: Result<(), Refusal>) -> (u32, String) {
    match answer {
        Ok(()) => (0, "page".to_string()),
        Err(Refusal { number, .. }) => (number, format!("refused {number}")),
    }
}

/// What comes of a call with this image, a lent page that holds these bytes, and a work slice
/// of this length, if the engine and the second interpreter agree on everything.
pub fn compare(
    image: &[u32],
    before: &[u8],
    work_length: usize,
    random: &mut Random,
) -> Result<Paged, Box<Difference>> {
    compare_with(engine::page, image, before, work_length, random)
}

/// The same for any function in the engine's place.
pub fn compare_with(
    page: impl FnOnce(&[u32], &mut [u8], &mut [u64]) -> PageReply,
    image: &[u32],
    before: &[u8],
    work_length: usize,
    random: &mut Random,
) -> Result<Paged, Box<Difference>> {
    let mut after = before.to_vec();
    let answer = second::page(image, &mut after, work_length);
    let mut lent = Lent::new(image, work_length, random);
    let mut lent_page = Guarded::holding(before, random);

    let reply = page(lent.image.slice(), lent_page.slice_mut(), lent.work.slice_mut());

    let mut faults = Vec::new();
    if reply != reply_of(answer) {
        faults.extend(replies(in_full(reply_of(answer)), in_full(reply)));
    }
    if let Some(fault) = lent_page.fault("the page", &after) {
        faults.push(fault);
        faults.extend(first_line(lent_page.slice(), &after));
    }
    faults.extend(lent.faults(answer.err()));
    if faults.is_empty() {
        return Ok(Paged { answer, page: after });
    }
    let call = format!(
        "page of {} words, lent page of {} bytes, work slice of {work_length} words",
        image.len(),
        before.len(),
    );
    Err(Box::new(Difference { call, faults, image: image.to_vec(), bytes: Vec::new() }))
}

/// The first line of the page that is not as it must be, in letters.
fn first_line(page: &[u8], expected: &[u8]) -> Option<String> {
    let mut lines = page.chunks(LINE).zip(expected.chunks(LINE)).enumerate();
    let (number, (is, must_be)) = lines.find(|(_, (is, must_be))| is != must_be)?;
    let (is, must_be) = (is.escape_ascii(), must_be.escape_ascii());
    Some(format!("its line {number} is `{is}` and must be `{must_be}`"))
}

/// A reply as the paper would say it, with its numbers.
pub fn in_full(reply: PageReply) -> String {
    let PageReply { refusal, place } = reply;
    let words = match (refusal, place) {
        (0, 0) => "page".to_string(),
        (1.., _) => format!("refused {refusal} at {place}"),
        _ => "what is no reply".to_string(),
    };
    format!("{words} (refusal {refusal}, place {place})")
}
