//! One call of `pi_check`, held against the second interpreter: its reply, the
//! image, the work words and every word beside the slices.

use crate::difference::Difference;
use crate::engine::{self, CheckReply, COMMAND};
use crate::lent::{replies, Lent};
use second::engine::Answer;
use second::generate::random::Random;
use second::Refusal;

/// The reply that says an answer.
pub fn reply_of(answer: Answer) -> CheckReply {
    match answer {
        Answer::Code(code) => CheckReply { refusal: 0, value: code.into(), place: 0 },
        Answer::Command => CheckReply { refusal: 0, value: COMMAND, place: 0 },
        Answer::Refused(Refusal { number, place }) => {
            CheckReply { refusal: number.into(), value: 0, place: place.into() }
        }
    }
}

/// An answer without its place: the refusal, or 0, and the answer in words.
pub fn in_words(answer: Answer) -> (u32, String) {
    match answer {
        Answer::Code(code) => (0, format!("code {code}")),
        Answer::Command => (0, "command".to_string()),
        Answer::Refused(Refusal { number, .. }) => (number, format!("refused {number}")),
    }
}

/// The answer to this image with a work slice of this length, if the engine and
/// the second interpreter agree on everything.
pub fn compare(
    image: &[u32],
    work_length: usize,
    random: &mut Random,
) -> Result<Answer, Box<Difference>> {
    compare_with(engine::check, image, work_length, random)
}

/// The same for any function in the engine's place.
pub fn compare_with(
    check: impl FnOnce(&[u32], &mut [u64]) -> CheckReply,
    image: &[u32],
    work_length: usize,
    random: &mut Random,
) -> Result<Answer, Box<Difference>> {
    let answer = second::check(image, work_length);
    let mut lent = Lent::new(image, work_length, random);

    let reply = check(lent.image.slice(), lent.work.slice_mut());

    let mut faults = Vec::new();
    if reply != reply_of(answer) {
        faults.extend(replies(in_full(reply_of(answer)), in_full(reply)));
    }
    faults.extend(lent.faults(answer.refusal()));
    if faults.is_empty() {
        return Ok(answer);
    }
    let call = format!("check of {} words, work slice of {work_length} words", image.len());
    Err(Box::new(Difference { call, faults, image: image.to_vec(), bytes: Vec::new() }))
}

/// A reply as the paper would say it, with its numbers.
pub fn in_full(reply: CheckReply) -> String {
    let CheckReply { refusal, value, place } = reply;
    let words = match (refusal, value, place) {
        (0, COMMAND, 0) => "command".to_string(),
        (0, 0..=7, 0) => format!("code {value}"),
        (1.., 0, _) => format!("refused {refusal} at {place}"),
        _ => "what is no answer".to_string(),
    };
    format!("{words} (refusal {refusal}, value {value}, place {place})")
}
