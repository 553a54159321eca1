//! Trees near every limit of the paper: nodes, depth, cells, bindings and the
//! entries of both stacks.

use super::choices::else_if;
use super::declarations::{to_the_left, to_the_right};
use super::random::Random;
use super::scope::Scope;
use super::tower::{Layer, Tower, HELPER, MOST_LOCALS};
use super::well_typed::{Generator, Room, Temper};
use crate::build::*;
use crate::tree::*;

/// A routine near one of the limits, on either side of it.
pub fn near_a_limit(random: &mut Random) -> Routine {
    match random.below(7) {
        0 => with_nodes(random.between(1_997, 2_003)),
        1 => {
            let depth = random.between(62, 66);
            with_depth(random, depth)
        }
        2 => near_cells(random),
        3 => near_bindings(random),
        _ => near_stacks(random),
    }
}

/// A routine of exactly so many nodes, at least 8: Assigns under CSeqs.
pub fn with_nodes(nodes: usize) -> Routine {
    // Assigns of a Num and their CSeqs are 3 × count − 1 nodes; a Sum for a Num
    // is 2 more.
    let sums =
        (0..3).find(|sums| (nodes + 1 - 2 * sums).is_multiple_of(3)).expect("some remainder fits");
    let count = (nodes + 1 - 2 * sums) / 3;
    let command = |index| {
        let value = num(index as u32);
        assign(0, if index < sums { sum(id(0), value) } else { value })
    };
    routine(1, balanced((0..count).map(command).collect()))
}

fn balanced(mut all: Vec<Command>) -> Command {
    if all.len() == 1 {
        return all.remove(0);
    }
    let second = all.split_off(all.len() / 2);
    cseq(balanced(all), balanced(second))
}

/// A routine of exactly this depth, at least 8, by way of various nodes.
pub fn with_depth(random: &mut Random, depth: usize) -> Routine {
    let commands = random.between(0, depth - 8);
    let mut value = num(1);
    for _ in 0..depth - commands - 2 {
        value = match random.below(3) {
            0 => sum(value, num(1)),
            1 => sub(num(1), value),
            _ => mul(value, num(1)),
        };
    }
    let mut command = assign(0, value);
    for _ in 0..commands {
        command = match random.below(6) {
            0 => cseq(command, assign(0, num(2))),
            1 => cseq(assign(0, num(2)), command),
            2 => repeat(boo(false), command),
            3 => cond(boo(true), command, assign(0, num(2))),
            4 => cond(boo(true), assign(0, num(2)), command),
            _ => blk(bind(1, num(3)), command),
        };
    }
    routine(1, command)
}

/// Block layers that bind so many names, each as many as it may.
fn block_layers(random: &mut Random, mut count: usize, cells: bool) -> Vec<Layer> {
    let mut layers = Vec::new();
    while count > 0 {
        let size = random.between(MOST_LOCALS / 2, MOST_LOCALS).min(count);
        layers.push(match cells {
            true => Layer::Block { plain: 0, cells: size },
            false => Layer::Block { plain: size, cells: 0 },
        });
        count -= size;
    }
    layers
}

fn near_cells(random: &mut Random) -> Routine {
    let registers = random.between(1, 16);
    let cells = random.between(252, 258) - registers;
    let layers = block_layers(random, cells, true);
    let functions = random.below(4);
    let inner = inner_command(random, 0);
    Tower { registers, functions, formals: 0, helper_formals: 0, layers, inner }.routine()
}

fn near_bindings(random: &mut Random) -> Routine {
    let helper_formals = random.below(9);
    let help = call(HELPER, vec![num(0); helper_formals]);
    let inner = match random.below(3) {
        0 => help,
        1 => cseq(help.clone(), help),
        _ => inner_command(random, helper_formals),
    };
    let mut tower = Tower {
        registers: random.between(1, 16),
        functions: random.below(6),
        formals: random.below(9),
        helper_formals,
        layers: Vec::new(),
        inner,
    };
    let bindings = random.between(500, 514) - tower.heights().bindings;
    tower.layers = block_layers(random, bindings, false);
    tower.routine()
}

fn near_stacks(random: &mut Random) -> Routine {
    let values = 2 * random.between(248, 256);
    let control = random.between(500, 513);
    let inner = inner_command(random, 0);
    let functions = random.between(10, 12);
    let mut tower = match random.below(5) {
        // V alone near its limit, control alone, both.
        0 => Tower::reaching(values, values / 2 + 1 + random.below(200), functions, inner),
        1 => Tower::reaching(2 * random.between(40, 200), control, functions, inner),
        2 => Tower::reaching(values, control, functions, inner),
        // Both near it at a called function's Blk, and both at once passed by that.
        3 => {
            let (values, control) = (2 * random.between(253, 255), random.between(506, 512));
            Tower::reaching(values, control, functions, call(HELPER, vec![]))
        }
        _ => both_passed(random, functions),
    };
    if random.chance(1, 4) {
        // Some CSeqs become endless Loops, which hold as much of control.
        for layer in &mut tower.layers {
            if *layer == Layer::Sequence && random.chance(1, 8) {
                *layer = Layer::Forever;
            }
        }
    }
    if random.chance(1, 4) {
        // Conds around some layers, which hold nothing.
        for _ in 0..random.between(1, 20) {
            let place = random.below(tower.layers.len());
            tower.layers.insert(place, Layer::Choice { first: random.chance(1, 2) });
        }
    }
    if random.chance(1, 4) {
        let (one, other) = (random.below(tower.layers.len()), random.below(tower.layers.len()));
        tower.layers.swap(one, other);
    }
    tower.routine()
}

/// A call whose mark leaves 512 entries on V, and so many on control that the Blk of the
/// function that is called has room on neither.
fn both_passed(random: &mut Random, functions: usize) -> Tower {
    let helper_formals = random.below(3);
    // Two actuals and the Call's mark are two entries more than the Call.
    let control = random.between(509, if helper_formals == 2 { 510 } else { 511 });
    let help = call(HELPER, vec![id(0); helper_formals]);
    let mut tower = match random.chance(1, 2) {
        true => Tower::reaching(510, control, functions, help),
        // Register 0 is set before the call, and behind it, which is one entry.
        false => {
            let inner = cseq(assign(0, num(77)), cseq(help, assign(0, num(99))));
            Tower::reaching(510, control - 1, functions, inner)
        }
    };
    tower.helper_formals = helper_formals;
    tower
}

/// What runs at the top of a tower: each rule that makes a stack, the cells or
/// the bindings grow is met by some of these. The helper has so many Formals.
pub fn inner_command(random: &mut Random, helper_formals: usize) -> Command {
    let help = || call(HELPER, vec![num(0); helper_formals]);
    let nest = random.between(1, 6);
    match random.below(18) {
        0 => assign(0, (0..nest).fold(num(1), |right, _| sum(num(1), right))),
        1 => assign(0, (0..nest).fold(num(1), |left, _| sum(left, num(1)))),
        2 => (0..nest).fold(assign(0, num(5)), |first, _| cseq(first, assign(0, num(6)))),
        3 => (0..nest).fold(assign(0, id(1)), |command, _| blk(bind(1, num(4)), command)),
        4 => (0..nest).fold(assign(0, num(7)), |command, _| blk(bind_ref(1, num(4)), command)),
        5 => {
            let formals: Vec<_> = (0..nest).map(|index| (2 + index as Name, 0)).collect();
            let body = block(bind(1, num(0)), assign(0, id(2)));
            blk(bind_abs(1, &formals, body), call(1, vec![num(8); nest]))
        }
        6 => (1..nest).fold(help(), |first, _| cseq(first, help())),
        7 => repeat(and(boo(true), lt(id(0), num(1))), help()),
        8 => repeat(not(not(boo(false))), assign(0, num(1))),
        9 => {
            let all = (0..nest).map(|index| bind_ref(1 + index as Name, deref(0))).collect();
            blk(declarations(all), assign(0, valref(1)))
        }
        10 => blk(bind_ref(1, boo(true)), repeat(id(1), assign(1, boo(false)))),
        // DSeqs below one another's first or second declaration: each name is bound
        // to the one before it.
        11 => blk(to_the_left(nest as Name), assign(0, id(1 + nest as Name))),
        12 => {
            let last = bind_ref(1 + nest as Name, id(nest as Name));
            blk(to_the_right(nest as Name, last), assign(0, id(1 + nest as Name)))
        }
        // Conds in each other's second or first command, and tests that are high.
        13 => else_if(nest as u32),
        14 => (0..nest).fold(assign(0, num(9)), |first, _| {
            cond(lt(id(0), num(10)), cseq(first, assign(0, num(6))), assign(0, num(7)))
        }),
        15 => {
            let test = (0..nest).fold(boo(true), |right, _| and(boo(true), right));
            cond(test, help(), assign(0, num(5)))
        }
        16 => {
            let test = (0..nest).fold(boo(true), |left, _| and(left, boo(false)));
            cond(test, assign(0, num(5)), help())
        }
        _ => {
            let mut generator = Generator { random, temper: Temper::Calm };
            generator.command(&Scope::of_registers(1), Room { nodes: 40, levels: 10 })
        }
    }
}
