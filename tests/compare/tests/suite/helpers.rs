//! What the tests share: comparisons that must find nothing, and the paper's
//! images.

use compare::byte_calls::ByteCall;
use compare::bytes::{self, RanOnBytes};
use compare::difference::Difference;
use compare::program::{self, Program};
use compare::run::Ran;
use compare::sample::{Sample, SHORT_RUN};
use compare::tally::Tally;
use compare::{check, run};
use second::build::*;
use second::encode;
use second::engine::{Answer, Outcome, MOST_BUDGET, WORK_WORDS};
use second::generate::random::Random;
use second::generate::tower::{Tower, HELPER};
use second::generate::{Case, Family};
use second::tree::{Command, Name, Place, Root};
use second::Refusal;

/// The comparison of one sample, and how its calls were answered.
pub type Compare = fn(Sample, &mut Tally) -> Result<(), Box<Difference>>;

/// Compares so many samples of a family, from this seed on; the tally says what came
/// up, in so many calls a sample at least.
pub fn compared(compare: Compare, first: u64, family: Family, count: u64, calls: u64) -> Tally {
    let mut tally = Tally::default();
    for seed in first..first + count {
        compare(Sample { family, seed }, &mut tally)
            .unwrap_or_else(|difference| panic!("{difference}"));
    }
    assert!(tally.calls() >= calls * count);
    tally
}

/// Each of these came up, so often at least.
pub fn reaches(tally: &Tally, refusals: &[u32], often: u64) {
    for number in refusals {
        assert!(tally.refused(*number) >= often, "{number} in\n{}", tally.text());
    }
}

/// The answer that both give, with work words enough.
pub fn agreed(image: &[u32], random: &mut Random) -> Answer {
    agreed_at(image, WORK_WORDS, random)
}

/// The answer that both give with a work slice of this length.
pub fn agreed_at(image: &[u32], work_length: usize, random: &mut Random) -> Answer {
    check::compare(image, work_length, random).unwrap_or_else(|difference| panic!("{difference}"))
}

/// The answer that both give to a tree with this many registers.
pub fn agreed_tree(registers: u32, root: impl Into<Root>) -> Answer {
    agreed(&image(registers, root), &mut Random::new(0))
}

/// What comes of a call of `pi_run` for both.
pub fn agreed_run(case: &Case, random: &mut Random) -> Ran {
    run::compare_narrowing(case, random).unwrap_or_else(|difference| panic!("{difference}"))
}

/// What comes of the run of a tree, with one register a start, at the greatest
/// budget; a short run is compared at every budget.
pub fn agreed_tree_run(root: impl Into<Root>, starts: &[i64]) -> Ran {
    let mut case = with_starts(image(starts.len() as u32, root), starts);
    let random = &mut Random::new(0);
    let whole = agreed_run(&case, random);
    for budget in 0..=whole.reply.steps.min(SHORT_RUN) {
        case.budget = budget;
        agreed_run(&case, random);
    }
    whole
}

/// What comes of a call on bytes for both.
pub fn agreed_run_bytes(call: &ByteCall, random: &mut Random) -> RanOnBytes {
    bytes::compare_run(call, random).unwrap_or_else(|difference| panic!("{difference}"))
}

/// The answer that both give to a call's image of bytes.
pub fn agreed_check_bytes(call: &ByteCall, random: &mut Random) -> Answer {
    bytes::compare_check(call, random).unwrap_or_else(|difference| panic!("{difference}"))
}

/// The refusals that both give to a call on bytes, or 0: the check's and the run's.
pub fn refused_on_bytes(call: &ByteCall, random: &mut Random) -> (u32, u32) {
    let refusal = agreed_check_bytes(call, random).refusal();
    (refusal.map_or(0, |refusal| refusal.number), agreed_run_bytes(call, random).refused())
}

/// The program, which must be there.
pub fn the_program() -> Program {
    Program::found().unwrap_or_else(|message| panic!("{message}"))
}

/// What the program prints for this input, and the second interpreter too.
pub fn agreed_output(input: &[u8]) -> String {
    program::compare(&the_program(), input).unwrap_or_else(|difference| panic!("{difference}"))
}

/// The registers after a run that must end normally, compared as above.
pub fn registers_after(root: impl Into<Root>, starts: &[i64]) -> Vec<i64> {
    let ran = agreed_tree_run(root, starts);
    assert_eq!(ran.reply.outcome, Outcome::None);
    ran.registers
}

/// Commands one after another, under CSeqs as shallow as can be.
pub fn in_turn(mut all: Vec<Command>) -> Command {
    if all.len() == 1 {
        return all.remove(0);
    }
    let second = all.split_off(all.len() / 2);
    cseq(in_turn(all), in_turn(second))
}

/// Commands that gather the values of names, in this order, in register 0: three
/// times what was there, and the next.
pub fn gather(names: &[Name]) -> Command {
    let add = |name: &Name| assign(0, sum(mul(id(0), num(3)), id(*name)));
    in_turn(names.iter().map(add).collect())
}

/// What [`gather`] leaves if the names have these values and there was 0.
pub fn gathered(values: impl IntoIterator<Item = i64>) -> i64 {
    values.into_iter().fold(0, |total, value| 3 * total + value)
}

/// The first words of an image with n 0 and this r, so many of them; behind r this word
/// stands, as often as it takes.
pub fn without_nodes(registers: u32, count: usize, behind: u32) -> Vec<u32> {
    let mut words = vec![0, registers];
    words.resize(count, behind);
    words
}

/// A call with the greatest budget and work words enough.
pub fn with_starts(image: Vec<u32>, starts: &[i64]) -> Case {
    Case { image, registers: starts.to_vec(), budget: MOST_BUDGET, work_length: WORK_WORDS }
}

/// The image of a routine that sets register 0 to 77 and then calls a function where V has
/// 510 entries and control so many, the Call among them; behind the call it sets the register
/// to 99. At the function's Blk V is full, and from 509 entries on so is control.
pub fn call_with_full_values(control: usize) -> Vec<u32> {
    let called = cseq(call(HELPER, vec![]), assign(0, num(99)));
    let inner = cseq(assign(0, num(77)), called);
    encode(&Tower::reaching(510, control - 1, 11, inner).routine())
}

/// The steps that it makes before the function's Blk. Each Blk with a Bind takes five until
/// its command starts, and there are 244: the helper's, those that define 11 functions, their
/// bodies, and 221 around; a Call and its mark take two, a CSeq one, and the Assign three.
pub fn steps_before_the_blk(control: usize) -> u64 {
    let around = control - 2 - 255;
    (5 * 244 + 2 * 11 + around + 1 + 3 + 1 + 2) as u64
}

pub fn refused(number: u32, place: Place) -> Answer {
    Answer::Refused(Refusal::new(number, place))
}

/// Words 5 0, 6 1 4 1 1, 0 5 0 3 2: 5 × (3 + 2).
pub const CALCULATOR: [u32; 12] = [5, 0, 6, 1, 4, 1, 1, 0, 5, 0, 3, 2];

/// [`CALCULATOR`] as a difference shows it.
pub const CALCULATOR_SHOWN: &str = "\
the image as a tree:
registers 0
   0 Mul
   1   Num 5
   2   Sum
   3     Num 3
   4     Num 2
the image in hexadecimal:
5 0 6 1 4 1 1 0 5 0 3 2";

/// The image of a case of the paper.
pub fn papers_image(wanted: &str) -> Vec<u32> {
    let case = papers_images().into_iter().find(|(case, ..)| *case == wanted);
    case.expect("a case of the paper").1
}

/// The images that are changed word by word: those of the paper's cases, and one with a
/// Cond in the other in a function.
pub fn images_to_change() -> Vec<Vec<u32>> {
    let inner = cond(id(3), assign(0, num(4)), call(1, vec![id(2), lt(id(0), num(9))]));
    let outer = cond(lt(id(2), id(0)), assign(0, num(5)), blk(bind_ref(3, boo(true)), inner));
    let nothing = bind_abs(1, &[(2, 0), (3, 1)], block(bind(4, id(2)), assign(0, id(4))));
    let function = bind_abs(5, &[(2, 0)], block(bind(4, num(6)), outer));
    let choice = blk(nothing, blk(function, call(5, vec![num(7)])));
    let paper = papers_images().into_iter().map(|(_, image, _)| image);
    paper.chain([image(1, choice)]).collect()
}

/// The images of the cases A to L, each with the checker's answer by the paper.
/// B and C are A's image, and G's three runs are of one image.
pub fn papers_images() -> Vec<(&'static str, Vec<u32>, Answer)> {
    let cell = blk(bind_ref(1, id(0)), assign(0, sum(id(1), id(1))));
    let body = block(bind_ref(3, id(2)), assign(0, id(3)));
    let function = blk(bind_abs(1, &[(2, 0)], body), call(1, vec![num(7)]));
    let location = blk(bind_ref(1, deref(0)), assign(0, sum(valref(1), num(1))));
    let unassignable = blk(bind_ref(1, deref(0)), assign(1, deref(0)));
    let later = blk(dseq(bind_ref(1, num(1)), bind_ref(2, id(1))), assign(1, num(0)));
    vec![
        ("A", CALCULATOR.to_vec(), Answer::Code(0)),
        ("D", image(0, sub(num(3), num(5))), Answer::Code(0)),
        ("E", image(0, div(num(1), num(0))), Answer::Code(0)),
        ("F", image(1, div(id(0), num(2))), Answer::Code(0)),
        ("G", image(2, factorial()), Answer::Command),
        ("H", image(1, cell), Answer::Command),
        ("I", image(1, function), Answer::Command),
        ("J", image(1, location), Answer::Command),
        ("K", image(1, unassignable), refused(13, 4)),
        ("L", image(0, later), Answer::Command),
    ]
}
