//! What the cases share, as in the second interpreter's own suite: run an image,
//! say what must come of it. The answer is the one that the engine and the second
//! interpreter give alike.

pub use crate::replies::*;
use compare::byte_calls::ByteCall;
use compare::bytes::RanOnBytes;
use compare::page::Paged;
use compare::ranges::{Lists, Ranged};
use compare::run::Ran;
use compare::sample::SHORT_RUN;
use compare::{bytes, check, engine, needs, page, ranges, run, Difference};
use second::build::image;
use second::encode::{bytes_of, register_bytes};
use second::engine::{Answer, Outcome, Reply, MOST_BUDGET, WORK_WORDS};
use second::generate::random::Random;
use second::generate::Case;
use second::needs::Needs;
pub use second::needs::{given, open};
use second::tree::Root;
use second::Refusal;

/// The reply and the registers after a run. It is compared at this budget, on bytes
/// too, and at lower ones: every one of a short run, the last ones and some more of a
/// long.
pub fn run_at(image: &[u32], starts: &[i64], budget: u64) -> (Reply, Vec<i64>) {
    let random = &mut Random::new(budget);
    let case = Case {
        image: image.to_vec(),
        registers: starts.to_vec(),
        budget,
        work_length: WORK_WORDS + random.below(3),
    };
    let Ran { reply, registers } = agreed(run::compare(&case, random));
    let on_bytes = agreed(bytes::compare_run(&ByteCall::of(&case), random));
    assert_eq!((on_bytes.reply, on_bytes.registers), (reply, register_bytes(&registers)));
    let lower: Vec<u64> = match reply.steps {
        steps @ 0..=SHORT_RUN => (0..=steps).collect(),
        steps => {
            let any = (0..8).map(|_| random.below(steps as usize) as u64);
            any.chain(steps - 8..=steps).collect()
        }
    };
    for budget in lower {
        agreed(run::compare(&Case { budget, ..case.clone() }, random));
    }
    (reply, registers)
}

/// Run a tree with one register a start, at the greatest budget.
pub fn run_tree(root: impl Into<Root>, starts: &[i64]) -> (Reply, Vec<i64>) {
    run_at(&image(starts.len() as u32, root), starts, MOST_BUDGET)
}

/// The registers after a run that must end normally.
pub fn registers_after(root: impl Into<Root>, starts: &[i64]) -> Vec<i64> {
    let (reply, registers) = run_tree(root, starts);
    assert_eq!(reply.outcome, Outcome::None);
    registers
}

/// The outcome and steps of a tree's run.
pub fn outcome(root: impl Into<Root>, starts: &[i64]) -> (Outcome, u64) {
    let (reply, _) = run_tree(root, starts);
    (reply.outcome, reply.steps)
}

/// The checker's answer to an image, given work words enough; the same on bytes.
pub fn checked(image: &[u32]) -> Answer {
    let answer = agreed(check::compare(image, WORK_WORDS, &mut Random::new(0)));
    assert_eq!(checked_bytes(&bytes_of(image), WORK_WORDS), answer);
    answer
}

/// The checker's answer to a tree with this many registers.
pub fn checked_tree(registers: u32, root: impl Into<Root>) -> Answer {
    checked(&image(registers, root))
}

/// The checker's answer to an image of bytes.
pub fn checked_bytes(image: &[u8], work_length: usize) -> Answer {
    let call = ByteCall { image: image.to_vec(), registers: vec![], budget: 0, work_length };
    agreed(bytes::compare_check(&call, &mut Random::new(0)))
}

/// The reply and the register bytes after a run on bytes.
pub fn run_bytes(image: &[u8], starts: &[u8], budget: u64, work_length: usize) -> (Reply, Vec<u8>) {
    let (image, registers) = (image.to_vec(), starts.to_vec());
    let call = ByteCall { image, registers, budget, work_length };
    let RanOnBytes { reply, registers } = agreed(bytes::compare_run(&call, &mut Random::new(0)));
    (reply, registers)
}

/// The needs of an image with a work slice of this length.
pub fn needed_with(image: &[u32], work_length: usize) -> Needs {
    agreed(needs::compare(image, work_length, &mut Random::new(0)))
}

/// The needs of an image, given work words enough.
pub fn needed(image: &[u32]) -> Needs {
    needed_with(image, WORK_WORDS)
}

/// The needs of a tree with this many registers.
pub fn needed_tree(registers: u32, root: impl Into<Root>) -> Needs {
    needed(&image(registers, root))
}

/// The engine's needs of an image must be these, also where its free runs are too many for
/// the second interpreter to go through.
pub fn needs_are(image: &[u32], expected: Needs) {
    needed(image);
    let reply = engine::needs(image, &mut vec![1; WORK_WORDS]);
    assert_eq!(Some(reply), needs::reply_of(expected));
}

/// The answer about a page, and the lent page after it, which held this before.
pub fn page_over(
    image: &[u32],
    before: &[u8],
    work_length: usize,
) -> (Result<(), Refusal>, Vec<u8>) {
    let random = &mut Random::new(before.len() as u64);
    let Paged { answer, page } = agreed(page::compare(image, before, work_length, random));
    (answer, page)
}

/// The page of an image that passes, as long as its lines are.
pub fn paged(image: &[u32]) -> String {
    let (answer, page) = page_over(image, &vec![b'#'; 31 * image[0] as usize], WORK_WORDS);
    assert_eq!(answer, Ok(()));
    String::from_utf8(page).expect("a text")
}

/// The page of a tree with this many registers.
pub fn paged_tree(registers: u32, root: impl Into<Root>) -> String {
    paged(&image(registers, root))
}

/// The answer about ranges, and both lists after it, which held these before. Where there are
/// ends, runs from starts within the limits are held to them.
pub fn ranges_over(
    image: &[u32],
    lowest: &[i64],
    highest: &[i64],
    work_length: usize,
) -> (Result<(), Refusal>, Vec<i64>, Vec<i64>) {
    let random = &mut Random::new(work_length as u64);
    let before = Lists { lowest: lowest.to_vec(), highest: highest.to_vec() };
    let Ranged { answer, lists } = agreed(ranges::compare(image, &before, work_length, random));
    if answer.is_ok() {
        for _ in 0..3 {
            agreed(ranges::run_within(image, &before.ranges(), &lists.ranges(), random));
        }
    }
    (answer, lists.lowest, lists.highest)
}

/// The ends of an image's registers from these starts, each a lowest and a highest, with a work
/// slice of this length; a refusal keeps both lists.
pub fn ends_with(image: &[u32], starts: &[(i64, i64)], work_length: usize) -> Ends {
    let (lowest, highest): (Vec<i64>, Vec<i64>) = starts.iter().copied().unzip();
    let (answer, lowest, highest) = ranges_over(image, &lowest, &highest, work_length);
    let ends: Vec<_> = lowest.into_iter().zip(highest).collect();
    assert!(answer.is_ok() || ends == starts, "{answer:?} changes {starts:?} to {ends:?}");
    answer.map(|()| ends)
}

/// The ends of a tree's registers from these starts.
pub fn ends_of(root: impl Into<Root>, starts: &[(i64, i64)]) -> Ends {
    ends_with(&image(starts.len() as u32, root), starts, WORK_WORDS)
}

fn agreed<T>(compared: Result<T, Box<Difference>>) -> T {
    compared.unwrap_or_else(|difference| panic!("{difference}"))
}
