//! One call of `pi_check_bytes` or `pi_run_bytes`, held against the second
//! interpreter: its reply, the register bytes, the image, the work words and every
//! byte and word beside the slices.

use crate::byte_calls::ByteCall;
use crate::difference::Difference;
use crate::engine::{self, CheckReply, RunReply};
use crate::guarded::Guarded;
use crate::lent::{replies, Lent};
use crate::{check, run};
use second::bytes::words;
use second::engine::{Answer, Reply};
use second::generate::random::Random;

/// What came of a run on bytes.
#[derive(Clone, Debug, PartialEq, Eq)]
pub struct RanOnBytes {
    pub reply: Reply,
    /// The register bytes after it.
    pub registers: Vec<u8>,
}

impl RanOnBytes {
    /// The refusal's number, or 0.
    pub fn refused(&self) -> u32 {
        self.reply.refusal().map_or(0, |refusal| refusal.number)
    }
}

/// The answer to this call's image and work words, if the engine and the second
/// interpreter agree on everything.
pub fn compare_check(call: &ByteCall, random: &mut Random) -> Result<Answer, Box<Difference>> {
    compare_check_with(engine::check_bytes, call, random)
}

/// The same for any function in the engine's place.
pub fn compare_check_with(
    check: impl FnOnce(&[u8], &mut [u64]) -> CheckReply,
    call: &ByteCall,
    random: &mut Random,
) -> Result<Answer, Box<Difference>> {
    let ByteCall { image, work_length, .. } = call;
    let answer = second::bytes::check(image, *work_length);
    let mut lent = Lent::new(image, *work_length, random);

    let reply = check(lent.image.slice(), lent.work.slice_mut());

    let mut faults = Vec::new();
    if reply != check::reply_of(answer) {
        let expected = check::in_full(check::reply_of(answer));
        faults.extend(replies(expected, check::in_full(reply)));
    }
    faults.extend(lent.faults(answer.refusal()));
    if faults.is_empty() {
        return Ok(answer);
    }
    let text = format!("check of {} bytes, work slice of {work_length} words", image.len());
    let bytes = vec![("the image", image.clone())];
    Err(Box::new(Difference { call: text, faults, image: words(image), bytes }))
}

/// What comes of this call, if the engine and the second interpreter agree on
/// everything.
pub fn compare_run(call: &ByteCall, random: &mut Random) -> Result<RanOnBytes, Box<Difference>> {
    compare_run_with(engine::run_bytes, call, random)
}

/// The same for any function in the engine's place.
pub fn compare_run_with(
    run: impl FnOnce(&[u8], &mut [u8], u64, &mut [u64]) -> RunReply,
    call: &ByteCall,
    random: &mut Random,
) -> Result<RanOnBytes, Box<Difference>> {
    let ByteCall { image, registers: starts, budget, work_length } = call;
    let mut after = starts.clone();
    let reply = second::bytes::run(image, &mut after, *budget, *work_length);
    let mut lent = Lent::new(image, *work_length, random);
    let mut registers = Guarded::holding(starts, random);

    let said = run(lent.image.slice(), registers.slice_mut(), *budget, lent.work.slice_mut());

    let mut faults = Vec::new();
    if said != run::reply_of(reply) {
        faults.extend(replies(run::in_full(run::reply_of(reply)), run::in_full(said)));
    }
    faults.extend(registers.fault("the register bytes", &after));
    faults.extend(lent.faults(reply.refusal()));
    if faults.is_empty() {
        return Ok(RanOnBytes { reply, registers: after });
    }
    let text = format!(
        "run of {} bytes, {} register bytes, budget {budget}, work slice of {work_length} words",
        image.len(),
        starts.len(),
    );
    let bytes = vec![("the image", image.clone()), ("the registers", starts.clone())];
    Err(Box::new(Difference { call: text, faults, image: words(image), bytes }))
}
