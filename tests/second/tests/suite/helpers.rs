//! What the tests share: run an image, say what must come of it.

pub use crate::replies::*;
use second::build::image;
use second::bytes;
use second::engine::{check, needs, page, ranges, run};
use second::engine::{Answer, Outcome, Reply, MOST_BUDGET, WORK_WORDS};
pub use second::needs::{given, open};
use second::needs::{Figures, Needs, Steps, EFFORT};
use second::refusal::TOO_MANY_STEPS;
use second::tree::Root;
use second::Refusal;

/// The reply and the registers after a run.
pub fn run_at(image: &[u32], starts: &[i64], budget: u64) -> (Reply, Vec<i64>) {
    let mut registers = starts.to_vec();
    let reply = run(image, &mut registers, budget, WORK_WORDS);
    (reply, registers)
}

/// Run a tree with one register a start, at the greatest budget.
pub fn run_tree(root: impl Into<Root>, starts: &[i64]) -> (Reply, Vec<i64>) {
    run_at(&image(starts.len() as u32, root), starts, MOST_BUDGET)
}

/// The registers after a run that must end normally.
pub fn registers_after(root: impl Into<Root>, starts: &[i64]) -> Vec<i64> {
    let (reply, registers) = run_tree(root, starts);
    assert_eq!(reply.outcome, Outcome::None);
    registers
}

/// The outcome and steps of a tree's run.
pub fn outcome(root: impl Into<Root>, starts: &[i64]) -> (Outcome, u64) {
    let (reply, _) = run_tree(root, starts);
    (reply.outcome, reply.steps)
}

/// The checker's answer to an image, given work words enough.
pub fn checked(image: &[u32]) -> Answer {
    check(image, WORK_WORDS)
}

/// The checker's answer to a tree with this many registers.
pub fn checked_tree(registers: u32, root: impl Into<Root>) -> Answer {
    checked(&image(registers, root))
}

/// The checker's answer to an image of bytes.
pub fn checked_bytes(image: &[u8], work_length: usize) -> Answer {
    bytes::check(image, work_length)
}

/// The reply and the register bytes after a run on bytes.
pub fn run_bytes(image: &[u8], starts: &[u8], budget: u64, work_length: usize) -> (Reply, Vec<u8>) {
    let mut registers = starts.to_vec();
    let reply = bytes::run(image, &mut registers, budget, work_length);
    (reply, registers)
}

/// The needs of an image with a work slice of this length.
pub fn needed_with(image: &[u32], work_length: usize) -> Needs {
    needs(image, work_length, EFFORT)
}

/// The needs of an image, given work words enough.
pub fn needed(image: &[u32]) -> Needs {
    needed_with(image, WORK_WORDS)
}

/// The needs of a tree with this many registers.
pub fn needed_tree(registers: u32, root: impl Into<Root>) -> Needs {
    needed(&image(registers, root))
}

/// The needs of an image must be these, also where its free runs are too many to go
/// through: what they reach then is no more.
pub fn needs_are(image: &[u32], expected: Needs) {
    match (needed(image), expected) {
        (Needs::AtLeast(reached), Needs::Figures(most)) => assert!(within(reached, most)),
        (Needs::AtLeast(reached), Needs::Refused(refusal)) => {
            assert!(reached.steps != Steps::Open && refusal == Refusal::whole(TOO_MANY_STEPS));
        }
        (found, expected) => assert_eq!(found, expected),
    }
}

/// No figure is above the other's.
pub fn within(some: Figures, most: Figures) -> bool {
    let steps = match (some.steps, most.steps) {
        (Steps::Most(some), Steps::Most(most)) => some <= most,
        (some, most) => some == most,
    };
    some.room.within(most.room) && steps
}

/// The answer about a page, and the lent page after it, which held this before.
pub fn page_over(
    image: &[u32],
    before: &[u8],
    work_length: usize,
) -> (Result<(), Refusal>, Vec<u8>) {
    let mut lent = before.to_vec();
    let answer = page(image, &mut lent, work_length);
    (answer, lent)
}

/// The page of an image that passes, as long as its lines are.
pub fn paged(image: &[u32]) -> String {
    let (answer, page) = page_over(image, &vec![b'#'; 31 * image[0] as usize], WORK_WORDS);
    assert_eq!(answer, Ok(()));
    String::from_utf8(page).expect("a text")
}

/// The page of a tree with this many registers.
pub fn paged_tree(registers: u32, root: impl Into<Root>) -> String {
    paged(&image(registers, root))
}

/// The answer about ranges, and both lists after it, which held these before.
pub fn ranges_over(
    image: &[u32],
    lowest: &[i64],
    highest: &[i64],
    work_length: usize,
) -> (Result<(), Refusal>, Vec<i64>, Vec<i64>) {
    let (mut lowest, mut highest) = (lowest.to_vec(), highest.to_vec());
    let answer = ranges(image, &mut lowest, &mut highest, work_length);
    (answer, lowest, highest)
}

/// The ends of an image's registers from these starts, each a lowest and a highest, with a work
/// slice of this length; a refusal keeps both lists.
pub fn ends_with(image: &[u32], starts: &[(i64, i64)], work_length: usize) -> Ends {
    let (lowest, highest): (Vec<i64>, Vec<i64>) = starts.iter().copied().unzip();
    let (answer, lowest, highest) = ranges_over(image, &lowest, &highest, work_length);
    let ends: Vec<_> = lowest.into_iter().zip(highest).collect();
    assert!(answer.is_ok() || ends == starts, "{answer:?} changes {starts:?} to {ends:?}");
    answer.map(|()| ends)
}

/// The ends of a tree's registers from these starts.
pub fn ends_of(root: impl Into<Root>, starts: &[(i64, i64)]) -> Ends {
    ends_with(&image(starts.len() as u32, root), starts, WORK_WORDS)
}
