//! The routines whose runs are timed. Each ends normally, and but for the straight
//! line each makes tens of thousands of steps, beside which clearing the work words
//! takes little. And a slot with no routine, whose run makes none.

use second::build::*;
use second::encode;
use second::engine::{run, Outcome, MOST_BUDGET, WORK_WORDS};
use second::generate::limits::with_nodes;
use second::kinds::MOST_NODES;
use second::tree::{Command, Name};

/// An image with its starting values, and the steps of its run.
pub struct Routine {
    pub name: &'static str,
    pub image: Vec<u32>,
    pub starts: Vec<i64>,
    pub steps: u64,
}

impl Routine {
    pub fn new(name: &'static str, image: Vec<u32>, starts: &[i64]) -> Routine {
        let reply = run(&image, &mut starts.to_vec(), MOST_BUDGET, WORK_WORDS);
        if let Outcome::Refused(refusal) = reply.outcome {
            panic!("{name} is refused with {} at {}", refusal.number, refusal.place);
        }
        Routine { name, image, starts: starts.to_vec(), steps: reply.steps }
    }
}

/// The routines, each around what its name says.
pub fn timed() -> Vec<Routine> {
    vec![
        // With z 0 nothing leaves the integers.
        Routine::new("arithmetic: the factorial loop", image(2, factorial()), &[0, 2_400]),
        Routine::new("nested loops", image(4, nested_loops()), &[0, 14, 0, 0]),
        Routine::new("choices: a Cond in a loop", image(3, choices()), &[0, 2_000, 0]),
        Routine::new(
            "divisions: quotients of both signs",
            image(3, divisions()),
            &[0, 2_000, 1_000],
        ),
        Routine::new("nested blocks and names", image(2, blocks()), &[0, 40]),
        Routine::new("calls with 8 Formals", image(2, calls()), &[0, 900]),
        Routine::new("locations: ValRef", image(2, locations()), &[0, 1_500]),
        Routine::new("straight line: 2,000 nodes", encode(&with_nodes(MOST_NODES as usize)), &[0]),
    ]
}

/// A slot with no routine, whose run is timed for each call.
pub fn empty() -> Routine {
    Routine::new("no routine: n 0", image(1, absent()), &[7])
}

/// As many rounds of a command as the counter's cell holds, down to 0.
fn rounds(counter: Name, command: Command) -> Command {
    repeat(gt(id(counter), num(0)), cseq(command, assign(counter, sub(id(counter), num(1)))))
}

/// Three loops, each within the one before: registers 1 to 3 count, and 0 counts
/// all rounds.
fn nested_loops() -> Command {
    const ROUNDS: u32 = 14;
    let again = |counter, command| cseq(assign(counter, num(ROUNDS)), rounds(counter, command));
    rounds(1, again(2, again(3, assign(0, sum(id(0), num(1))))))
}

/// In each round a Cond whose test is false and true in turn: register 2 counts on, and
/// in the next round register 0 after it.
fn choices() -> Command {
    let count = |register| assign(register, sum(id(register), num(1)));
    rounds(1, cond(lt(id(0), id(2)), count(0), count(2)))
}

/// In each round a position, from one on the left of the datum to one on its right, is divided
/// by 7 and the quotient by −3: two quotients, the first of either sign.
fn divisions() -> Command {
    let position = sub(id(2), id(1));
    rounds(1, assign(0, div(div(position, num(7)), sub(num(0), num(3)))))
}

/// In each round blocks within blocks, twenty names each, some of them read from
/// the blocks around; then names bound far outside are read and set.
fn blocks() -> Command {
    const BLOCKS: usize = 10;
    const OUTER: Name = 8;
    const LOCALS: Name = 20;
    let outer = |index: Name| 2 + index % OUTER;
    let set = |index: Name| assign(outer(index), id(outer(index + 1)));
    let inner = commands((0..OUTER).map(set).collect());
    let nested = (0..BLOCKS).fold(inner, |command, _| {
        let local = |index| bind(32 + index, id(outer(index)));
        blk(declarations((0..LOCALS).map(local).collect()), command)
    });
    let cells = (0..OUTER).map(|index| bind_ref(outer(index), num(index))).collect();
    blk(declarations(cells), rounds(1, nested))
}

/// In each round a function of 8 Formals is called, and calls one of 4.
fn calls() -> Command {
    let formal = |index: Name| (20 + index, 0);
    let four: Vec<_> = (0..4).map(formal).collect();
    let eight: Vec<_> = (0..8).map(formal).collect();
    let total = |names: [Name; 4]| {
        let [first, second, third, fourth] = names.map(id);
        sum(sum(first, second), sum(third, fourth))
    };
    let add = block(bind(30, total([20, 21, 22, 23])), assign(0, id(30)));
    let pass = block(bind(30, total([20, 21, 22, 23])), call(10, (24..28).map(id).collect()));
    let outer = call(11, (0..8).map(num).collect());
    blk(bind_abs(10, &four, add), blk(bind_abs(11, &eight, pass), rounds(1, outer)))
}

/// In each round cells are read through cells that hold their locations, and
/// through a name bound to what such a cell holds.
fn locations() -> Command {
    let read = assign(0, sum(valref(11), sum(valref(12), valref(11))));
    let through = blk(bind(14, valref(13)), assign(14, sum(id(14), num(1))));
    let inner = rounds(1, cseq(read, through));
    let first = dseq(bind_ref(10, num(1)), bind_ref(12, deref(0)));
    blk(first, blk(bind_ref(11, deref(10)), blk(bind_ref(13, deref(11)), inner)))
}
