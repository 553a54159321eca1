//! Runs near each limit from both sides: towers whose inner command meets chosen
//! heights of both stacks, of cells and of bindings, with inner commands that each
//! grow by other rules.

use crate::helpers::{agreed_run, with_starts};
use compare::run::Ran;
use second::build::*;
use second::encode;
use second::generate::limits::inner_command;
use second::generate::random::Random;
use second::generate::tower::{Layer, Tower, HELPER};
use second::generate::Case;
use second::tree::Command;

/// What comes of a tower's run, compared at the greatest budget and at the last
/// ones: the withheld step's number is told only if the budget has that step.
fn run(tower: &Tower, random: &mut Random) -> Ran {
    let case = with_starts(encode(&tower.routine()), &vec![0; tower.registers]);
    let whole = agreed_run(&case, random);
    for budget in whole.reply.steps - 1..=whole.reply.steps + 1 {
        agreed_run(&Case { budget, ..case.clone() }, random);
    }
    whole
}

/// How many runs ended normally, and how many with 33 to 36.
#[derive(Debug, Default, PartialEq)]
struct Ends([usize; 5]);

impl Ends {
    fn count(&mut self, ran: &Ran) {
        match ran.refused() {
            0 => self.0[0] += 1,
            refusal @ 33..=36 => self.0[refusal as usize - 32] += 1,
            _ => {}
        }
    }

    /// Whether some runs ended normally, and some with each of these.
    fn both_sides(&self, refusals: &[u32]) {
        let kinds = refusals.iter().map(|refusal| refusal - 32);
        for kind in [0].into_iter().chain(kinds) {
            assert!(self.0[kind as usize] > 5, "{self:?}");
        }
    }
}

/// Commands that together meet each rule that makes a stack grow.
fn growing() -> Vec<Command> {
    let set = || assign(0, num(1));
    let function = bind_abs(1, &[(2, 0)], block(bind_ref(3, id(2)), assign(0, id(3))));
    vec![
        set(),
        assign(0, sum(num(1), sum(num(2), num(3)))),
        assign(0, sum(sum(num(1), num(2)), num(3))),
        cseq(set(), set()),
        repeat(not(boo(true)), set()),
        repeat(lt(id(0), num(1)), set()),
        cond(boo(true), set(), set()),
        cond(lt(num(1), id(0)), set(), blk(bind(1, num(1)), set())),
        blk(bind(1, num(1)), set()),
        blk(dseq(bind(1, num(1)), bind_ref(2, deref(0))), assign(0, valref(2))),
        blk(dseq(bind(1, num(1)), bind(2, id(1))), assign(0, id(2))),
        blk(function, call(1, vec![num(7)])),
        call(HELPER, vec![]),
    ]
}

#[test]
fn both_stacks_at_every_height_near_512() {
    let random = &mut Random::new(1);
    let mut ends = Ends::default();
    for inner in growing() {
        for values in (500..=510).step_by(2) {
            for control in 502..=512 {
                ends.count(&run(&Tower::reaching(values, control, 11, inner.clone()), random));
            }
        }
        for control in 505..=512 {
            ends.count(&run(&Tower::reaching(100, control, 11, inner.clone()), random));
        }
    }
    ends.both_sides(&[35, 36]);
}

/// A tower with so many more names than its functions bind, cells or plain.
fn with_names(registers: usize, count: usize, cells: bool, inner: Command) -> Tower {
    let mut layers = Vec::new();
    let mut left = count;
    while left > 0 {
        let size = left.min(20);
        layers.push(match cells {
            true => Layer::Block { plain: 0, cells: size },
            false => Layer::Block { plain: size, cells: 0 },
        });
        left -= size;
    }
    Tower { registers, functions: 3, formals: 2, helper_formals: 4, layers, inner }
}

#[test]
fn cells_at_every_number_near_256() {
    let random = &mut Random::new(3);
    let mut ends = Ends::default();
    let in_turn = || blk(bind_ref(1, num(4)), assign(0, id(1)));
    let two = || blk(dseq(bind_ref(1, num(4)), bind_ref(2, deref(1))), assign(0, valref(2)));
    for registers in [1, 2, 16] {
        for inner in [in_turn(), cseq(in_turn(), in_turn()), two(), blk(bind_ref(3, num(1)), two())]
        {
            for cells in 250..=257 {
                let tower = with_names(registers, cells - registers, true, inner.clone());
                assert_eq!(tower.heights().cells, cells);
                ends.count(&run(&tower, random));
            }
        }
    }
    ends.both_sides(&[33]);
}

#[test]
fn bindings_at_every_number_near_512() {
    let random = &mut Random::new(4);
    let mut ends = Ends::default();
    let help = || call(HELPER, vec![num(0); 4]);
    let name = || blk(bind(1, num(4)), assign(0, id(1)));
    let two = || blk(dseq(bind(1, num(4)), bind_ref(2, id(1))), assign(0, id(2)));
    let function =
        || blk(bind_abs(1, &[], block(bind(2, num(0)), assign(0, num(3)))), call(1, vec![]));
    for registers in [1, 16] {
        for inner in [help(), cseq(help(), name()), cseq(name(), help()), two(), function()] {
            for bindings in 504..=513 {
                let bound = with_names(registers, 0, false, inner.clone()).heights().bindings;
                let tower = with_names(registers, bindings - bound, false, inner.clone());
                assert_eq!(tower.heights().bindings, bindings);
                ends.count(&run(&tower, random));
            }
        }
    }
    ends.both_sides(&[34]);
}

/// The generators' inner commands on random heights.
#[test]
fn any_inner_command_near_the_limits() {
    let random = &mut Random::new(5);
    let mut ends = Ends::default();
    for _ in 0..400 {
        let (values, control) = (2 * random.between(252, 255), random.between(506, 512));
        let inner = inner_command(random, 0);
        let (values, control) = match random.below(3) {
            0 => (values, 300 + random.below(100)),
            1 => (100, control),
            _ => (values, control),
        };
        ends.count(&run(&Tower::reaching(values, control, 11, inner), random));
    }
    ends.both_sides(&[35, 36]);
}
