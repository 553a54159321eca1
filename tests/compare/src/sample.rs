//! Calls made from the second interpreter's generators, the same for the same
//! family and seed everywhere.

use crate::byte_calls::{ByteCall, NEAR_BUDGETS};
use crate::bytes::{self, RanOnBytes};
use crate::difference::Difference;
use crate::inputs::{changed, random_bytes};
use crate::page::{self, LINE};
use crate::program::{self, Program};
use crate::run::Ran;
use crate::tally::Tally;
use crate::{check, needs, run};
use second::encode::program_input;
use second::engine::{MOST_BUDGET, WORK_WORDS};
use second::generate::random::{starting_value, Random};
use second::generate::{Case, Family};
use second::kinds::MOST_NODES;
use second::program::with_budget;
use second::refusal;

/// Lengths of the work slice that are enough, and that are not.
pub const ENOUGH: [usize; 4] = [WORK_WORDS, WORK_WORDS, WORK_WORDS + 1, WORK_WORDS + 1_000];
pub const TOO_SHORT: [usize; 3] = [0, 1, WORK_WORDS - 1];
/// Budgets that are refused.
pub const TOO_GREAT: [u64; 4] = [MOST_BUDGET + 1, 2 * MOST_BUDGET, 1 << 32, u64::MAX];

/// A run of so many steps at most is compared at every budget.
pub const SHORT_RUN: u64 = 300;
/// A run that has not ended after so many steps is taken for an endless one. Few
/// of them are compared at the greatest budget.
pub const LONG_RUN: u64 = 20_000;

/// So many changed calls on bytes are made from one sample.
pub const CHANGED: usize = 4;

/// One case of a generator.
#[derive(Clone, Copy, Debug)]
pub struct Sample {
    pub family: Family,
    pub seed: u64,
}

/// How many of each hundred samples are of which family.
pub type Mixture = [(usize, Family); 16];

/// For checks, and for calls on bytes. Large cases take the second interpreter
/// longest and are seldom.
pub const CHECKED: Mixture = [
    (11, Family::Small),
    (5, Family::Medium),
    (2, Family::Large),
    (5, Family::Faulty),
    (8, Family::Sequences),
    (8, Family::Choices),
    (6, Family::Functions),
    (2, Family::Divisions),
    (2, Family::Ranges),
    (6, Family::Limits),
    (17, Family::Damaged),
    (4, Family::Empty),
    (8, Family::Shaped),
    (7, Family::Plausible),
    (4, Family::Words),
    (5, Family::Host),
];

/// For runs, the program's too, and for pages: more of what passes the checker.
pub const RUN: Mixture = [
    (15, Family::Small),
    (8, Family::Medium),
    (4, Family::Large),
    (8, Family::Faulty),
    (9, Family::Sequences),
    (9, Family::Choices),
    (7, Family::Functions),
    (6, Family::Divisions),
    (3, Family::Ranges),
    (8, Family::Limits),
    (6, Family::Damaged),
    (3, Family::Empty),
    (5, Family::Shaped),
    (2, Family::Plausible),
    (2, Family::Words),
    (5, Family::Host),
];

/// For needs: more functions and Conds, and more near the limits.
pub const NEEDED: Mixture = [
    (12, Family::Small),
    (7, Family::Medium),
    (3, Family::Large),
    (4, Family::Faulty),
    (10, Family::Sequences),
    (12, Family::Choices),
    (19, Family::Functions),
    (1, Family::Divisions),
    (4, Family::Ranges),
    (9, Family::Limits),
    (9, Family::Damaged),
    (2, Family::Empty),
    (3, Family::Shaped),
    (1, Family::Plausible),
    (1, Family::Words),
    (3, Family::Host),
];

impl Sample {
    /// The sample of this seed in a mixture of all families.
    pub fn mixed(seed: u64, mixture: &Mixture) -> Sample {
        let family = *Random::new(!seed).weighted(mixture);
        Sample { family, seed }
    }

    pub fn case(self) -> Case {
        self.family.case(self.seed)
    }

    /// The source of what surrounds the call: lengths, budgets, junk.
    pub fn random(self) -> Random {
        Random::new(self.seed ^ 0x5eed)
    }

    /// The family's name, for a command line.
    pub fn family_name(self) -> &'static str {
        let row = Family::ALL.iter().find(|(_, family)| *family == self.family);
        row.expect("every family is listed").0
    }

    /// A difference, with this sample named in its call.
    pub(crate) fn named(self, mut difference: Box<Difference>) -> Box<Difference> {
        let Sample { seed, .. } = self;
        difference.call += &format!(", {} {seed}", self.family_name());
        difference
    }
}

/// Compares the check of one sample, with each of its work slices.
pub fn compare_check(sample: Sample, tally: &mut Tally) -> Result<(), Box<Difference>> {
    let Case { image, work_length, .. } = sample.case();
    let random = &mut sample.random();
    for length in work_lengths(work_length, random) {
        let answer = check::compare(&image, length, random)
            .map_err(|difference| sample.named(difference))?;
        let (refusal, words) = check::in_words(answer);
        tally.count(refusal, words);
    }
    Ok(())
}

/// Compares the needs of one sample, with each of its work slices.
pub fn compare_needs(sample: Sample, tally: &mut Tally) -> Result<(), Box<Difference>> {
    let Case { image, work_length, .. } = sample.case();
    let random = &mut sample.random();
    for length in work_lengths(work_length, random) {
        let needs = needs::compare(&image, length, random)
            .map_err(|difference| sample.named(difference))?;
        let (refusal, words) = needs::in_words(needs);
        tally.count(refusal, words);
    }
    Ok(())
}

/// Compares the pages of one sample: with a work slice that is enough, lent pages on both sides
/// of the length that its lines have; with each of its other work slices, one of those.
pub fn compare_page(sample: Sample, tally: &mut Tally) -> Result<(), Box<Difference>> {
    let Case { image, work_length, .. } = sample.case();
    let random = &mut sample.random();
    let page_lengths = page_lengths(&image, random);
    let work_lengths = work_lengths(work_length, random);
    let mut calls: Vec<_> = page_lengths.iter().map(|length| (*length, work_lengths[0])).collect();
    for length in &work_lengths[1..] {
        calls.push((*random.pick(&page_lengths), *length));
    }
    for (page_length, work_length) in calls {
        let before = random_bytes(page_length, random);
        let paged = page::compare(&image, &before, work_length, random)
            .map_err(|difference| sample.named(difference))?;
        let (refusal, words) = page::in_words(paged.answer);
        tally.count(refusal, words);
    }
    Ok(())
}

/// The lengths of lent pages: none, exact, a byte less and a byte more, and any other on
/// either side. Where the image's n is more than any tree has, as if it were that.
fn page_lengths(image: &[u32], random: &mut Random) -> Vec<usize> {
    let nodes = image.first().map_or(0, |nodes| (*nodes).min(MOST_NODES));
    let exact = LINE * nodes as usize;
    let mut lengths = vec![exact, exact + 1, exact + random.between(2, 200)];
    if exact > 0 {
        lengths.extend([0, exact - 1, random.below(exact)]);
    }
    lengths
}

/// The lengths of the work slices for a call that has no others: one that is enough, the
/// case's own where that is another, and sometimes one too short.
pub(crate) fn work_lengths(own: usize, random: &mut Random) -> Vec<usize> {
    let mut lengths = vec![*random.pick(&ENOUGH)];
    if own != WORK_WORDS {
        lengths.push(own);
    }
    if random.chance(1, 16) {
        lengths.push(*random.pick(&TOO_SHORT));
    }
    lengths
}

/// Compares the runs of one sample: a short run at every budget, a longer one at
/// its last budgets and at random ones, an endless one now and then at the
/// greatest; and the case's own faults of the host, or sometimes another.
pub fn compare_run(sample: Sample, tally: &mut Tally) -> Result<(), Box<Difference>> {
    let random = &mut sample.random();
    let own = sample.case();
    let mut compare = |case: &Case, random: &mut Random| -> Result<Ran, Box<Difference>> {
        let ran =
            run::compare_narrowing(case, random).map_err(|difference| sample.named(difference))?;
        let (refusal, words) = run::in_words(ran.reply);
        tally.count(refusal, words);
        Ok(ran)
    };
    if own.budget > MOST_BUDGET || own.work_length < WORK_WORDS {
        compare(&own, random)?;
    }
    let work_length = *random.pick(&ENOUGH);
    let whole = compare(&Case { budget: LONG_RUN, work_length, ..own.clone() }, random)?;
    for budget in budgets(&whole, random) {
        compare(&Case { budget, work_length: WORK_WORDS, ..own.clone() }, random)?;
    }
    if random.chance(1, 8) {
        compare(&with_a_fault(own, random), random)?;
    }
    Ok(())
}

/// Compares the calls on bytes of one sample: whole, at budgets near its end and near
/// the limit, and some with changes; each call as a check and as a run.
pub fn compare_bytes(sample: Sample, tally: &mut Tally) -> Result<(), Box<Difference>> {
    let random = &mut sample.random();
    let own = ByteCall::of(&sample.case());
    if own.budget > MOST_BUDGET || own.work_length < WORK_WORDS {
        compare_both(sample, &own, random, tally)?;
    }
    let whole = ByteCall { budget: LONG_RUN, work_length: *random.pick(&ENOUGH), ..own };
    let ran = compare_both(sample, &whole, random, tally)?;
    let (near, steps) = (*random.pick(&NEAR_BUDGETS), ran.reply.steps);
    let budgets = match ran.refused() {
        1..=refusal::WORK => vec![near],
        _ => vec![near, steps.saturating_sub(1), steps, steps + 1],
    };
    for budget in budgets {
        let call = affordable(ByteCall { budget, ..whole.clone() }, random);
        compare_both(sample, &call, random, tally)?;
    }
    for _ in 0..CHANGED {
        let call = affordable(whole.changed(random), random);
        compare_both(sample, &call, random, tally)?;
    }
    Ok(())
}

/// Compares one call on bytes as a check and as a run.
fn compare_both(
    sample: Sample,
    call: &ByteCall,
    random: &mut Random,
    tally: &mut Tally,
) -> Result<RanOnBytes, Box<Difference>> {
    let named = |difference| sample.named(difference);
    let answer = bytes::compare_check(call, random).map_err(named)?;
    let ran = bytes::compare_run(call, random).map_err(named)?;
    let (refusal, words) = check::in_words(answer);
    tally.count(refusal, format!("check: {words}"));
    let (refusal, words) = run::in_words(ran.reply);
    tally.count(refusal, format!("run: {words}"));
    Ok(ran)
}

/// The call; of the runs that are taken for endless, all but one in twelve with a
/// lower budget.
fn affordable(mut call: ByteCall, random: &mut Random) -> ByteCall {
    if (LONG_RUN + 1..=MOST_BUDGET).contains(&call.budget) {
        let ByteCall { image, registers, work_length, .. } = &call;
        let reply = second::bytes::run(image, &mut registers.clone(), LONG_RUN, *work_length);
        let endless = reply.refusal().is_some_and(|refusal| refusal.number == refusal::STEPS);
        if endless && !random.chance(1, 12) {
            call.budget = LONG_RUN;
        }
    }
    call
}

/// Compares the program on one sample: on its image with the starting values, and
/// as often as not on an input made from that. One in four endless runs is compared.
pub fn compare_program(sample: Sample, tally: &mut Tally) -> Result<(), Box<Difference>> {
    let program = Program::found().unwrap_or_else(|message| panic!("{message}"));
    let random = &mut sample.random();
    let Case { image, registers, .. } = sample.case();
    let mut inputs = vec![program_input(&image, &registers)];
    if random.chance(1, 2) {
        inputs.push(changed(&inputs[0], random));
    }
    for input in inputs {
        if endless(&input) && !random.chance(1, 4) {
            continue;
        }
        let output =
            program::compare(&program, &input).map_err(|difference| sample.named(difference))?;
        let (refusal, words) = program::in_words(&output);
        tally.count(refusal, words);
    }
    Ok(())
}

/// Whether the program's run on this input is taken for an endless one.
fn endless(input: &[u8]) -> bool {
    with_budget(input, LONG_RUN).starts_with(b"refused 30 ")
}

/// The budgets for a run that came to this with [`LONG_RUN`] steps.
fn budgets(whole: &Ran, random: &mut Random) -> Vec<u64> {
    let steps = whole.reply.steps;
    match whole.refused() {
        1..=refusal::WORK => vec![0, MOST_BUDGET],
        refusal::STEPS => {
            // Small ones as often as great ones.
            let mut any = || {
                let most = LONG_RUN >> random.below(12);
                random.below(most as usize) as u64
            };
            let mut all = vec![0, any(), any(), any(), any()];
            if random.chance(1, 12) {
                all.push(MOST_BUDGET);
            }
            all
        }
        _ if steps <= SHORT_RUN => (0..=steps + 1).chain([MOST_BUDGET]).collect(),
        _ => {
            let mut any = || random.below(steps as usize) as u64;
            vec![0, any(), any(), any(), any(), steps - 1, steps, steps + 1, MOST_BUDGET]
        }
    }
}

/// The call with one more fault of the host.
fn with_a_fault(mut case: Case, random: &mut Random) -> Case {
    match random.below(3) {
        0 => case.work_length = *random.pick(&TOO_SHORT),
        1 => case.budget = *random.pick(&TOO_GREAT),
        _ => {
            let other = random.below(18);
            let count = if other == case.registers.len() { 18 } else { other };
            case.registers = (0..count).map(|_| starting_value(random, false)).collect();
        }
    }
    case
}
