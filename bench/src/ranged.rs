//! The routines whose ranges are timed beside a run: without Loop, from limits within which
//! both are given.

use crate::routines::Routine;
use second::build::*;
use second::carried::Range;
use second::encode;
use second::generate::limits::with_nodes;
use second::generate::steps::of_steps;
use second::kinds::MOST_NODES;
use second::tree::{Command, Name};

/// A routine, which runs from its starting values, and limits around them.
pub struct Ranged {
    pub routine: Routine,
    pub limits: Vec<Range>,
}

impl Ranged {
    fn new(name: &'static str, image: Vec<u32>, limits: &[(i64, i64)]) -> Ranged {
        let starts: Vec<i64> = limits.iter().map(|(lowest, _)| *lowest).collect();
        let limits = limits.iter().map(|(lowest, highest)| Range::new(*lowest, *highest)).collect();
        Ranged { routine: Routine::new(name, image, &starts), limits }
    }
}

/// The routines, each around what its name says.
pub fn ranged() -> Vec<Ranged> {
    vec![
        Ranged::new(
            "straight line: 2,000 nodes",
            encode(&with_nodes(MOST_NODES as usize)),
            &[(20, 40)],
        ),
        Ranged::new(
            "functions that call functions twice",
            image(1, of_steps(100_000)),
            &[(20, 40)],
        ),
        Ranged::new("choices of one truth", image(2, choices()), &[(0, 4), (20, 40)]),
        Ranged::new("choices of both truths", image(2, choices()), &[(0, 10), (20, 40)]),
        Ranged::new("both truths, with 200 cells", image(2, among_cells()), &[(0, 10), (20, 40)]),
    ]
}

/// Eighty Conds one behind another, by whether register 0 is below 5.
fn choices() -> Command {
    let add = |number| assign(1, sum(id(1), num(number)));
    commands_in_turn((0..80).map(|_| cond(lt(id(0), num(5)), add(1), add(2))).collect())
}

/// The same where 200 cells are live.
fn among_cells() -> Command {
    (0..10).fold(choices(), |command, _| {
        let cells = (0..20).map(|index: Name| bind_ref(10 + index, num(index))).collect();
        blk(declarations(cells), command)
    })
}

/// Commands under CSeqs as shallow as can be.
fn commands_in_turn(mut all: Vec<Command>) -> Command {
    if all.len() == 1 {
        return all.remove(0);
    }
    let second = all.split_off(all.len() / 2);
    cseq(commands_in_turn(all), commands_in_turn(second))
}
