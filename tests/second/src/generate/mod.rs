//! Cases made from a seed, the same for the same seed everywhere.

pub mod choices;
pub mod damage;
pub mod declarations;
pub mod divisions;
pub mod empty;
pub mod functions;
pub mod limits;
pub mod noise;
pub mod random;
pub mod ranges;
pub mod scope;
pub mod starts;
pub mod steps;
pub mod tower;
pub mod well_typed;

use crate::encode::encode;
use crate::engine::{MOST_BUDGET, WORK_WORDS};
use crate::kinds::{MOST_DEPTH, MOST_REGISTERS};
use crate::tree::{Command, Root, Routine};
use random::{starting_value, Random};
use scope::Scope;
use well_typed::{Generator, Room, Temper, LEAST_COMMAND};

/// One call of the engine: an image, starting values, budget and the length of
/// the work slice.
#[derive(Clone, Debug, PartialEq, Eq)]
pub struct Case {
    pub image: Vec<u32>,
    pub registers: Vec<i64>,
    pub budget: u64,
    pub work_length: usize,
}

/// The kinds of cases.
#[derive(Clone, Copy, Debug, PartialEq, Eq)]
pub enum Family {
    /// Well-typed, up to 40 nodes or none: short enough to compare at every budget.
    Small,
    /// Well-typed, up to 300 nodes or none.
    Medium,
    /// Well-typed, up to 2,000 nodes or none.
    Large,
    /// Well-typed, up to 80 nodes, with faults of arithmetic in many places.
    Faulty,
    /// A Blk whose DSeqs use what was declared before, up to some 200 nodes; one in
    /// three has another name in one of its DSeqs, which may be a fault.
    Sequences,
    /// Conds in each other, in blocks, loops and functions, up to some 200 nodes; one in
    /// three has a change in one of its Conds, taken or not, which may be a fault.
    Choices,
    /// Functions that call functions, some with Loops and some of very many steps, up to
    /// 300 nodes; one in three has a change at a Call, which may be a fault.
    Functions,
    /// Quotients of every sign, of each other, in Assigns, Conds, loops and functions, up to
    /// some 120 nodes, with starting values of every sign and size.
    Divisions,
    /// Without Loop, with Conds whose tests may be both, up to 300 nodes; a few have a Loop, an
    /// operation that is not safe, or near 1,000,000 steps.
    Ranges,
    /// Near a limit of nodes, depth, cells, bindings or stack entries.
    Limits,
    /// A well-typed image with one fault.
    Damaged,
    /// No node, or near that, with any budget and now and then a fault of the host.
    Empty,
    /// The right shape, with names and types left to chance.
    Shaped,
    /// Words in plausible ranges.
    Plausible,
    /// Random words.
    Words,
    /// Faults of the host: register slice, budget, work slice.
    Host,
}

impl Family {
    pub const ALL: [(&'static str, Family); 16] = [
        ("small", Family::Small),
        ("medium", Family::Medium),
        ("large", Family::Large),
        ("faulty", Family::Faulty),
        ("sequences", Family::Sequences),
        ("choices", Family::Choices),
        ("functions", Family::Functions),
        ("divisions", Family::Divisions),
        ("ranges", Family::Ranges),
        ("limits", Family::Limits),
        ("damaged", Family::Damaged),
        ("empty", Family::Empty),
        ("shaped", Family::Shaped),
        ("plausible", Family::Plausible),
        ("words", Family::Words),
        ("host", Family::Host),
    ];

    pub fn named(name: &str) -> Option<Family> {
        Family::ALL.iter().find(|(known, _)| *known == name).map(|(_, family)| *family)
    }

    /// The case of this family with this seed.
    pub fn case(self, seed: u64) -> Case {
        let random = &mut Random::new(seed);
        match self {
            Family::Small => well_typed_case(random, 40),
            Family::Medium => well_typed_case(random, 300),
            Family::Large => well_typed_case(random, 2_000),
            Family::Faulty => {
                let image = encode(&well_typed_routine(random, 80, Temper::Faulty));
                case_of(random, image, true)
            }
            Family::Sequences => changed_case(
                random,
                |generator, scope| generator.sequences(scope),
                damage::change_a_sequence_of,
            ),
            Family::Choices => changed_case(
                random,
                |generator, scope| generator.choices(scope),
                damage::change_a_choice_of,
            ),
            Family::Functions => changed_case(
                random,
                |generator, scope| generator.functions(scope),
                damage::change_a_function_of,
            ),
            Family::Divisions => divisions_case(random),
            Family::Ranges => ranges_case(random),
            Family::Limits => {
                let image = encode(&limits::near_a_limit(random));
                case_of(random, image, false)
            }
            Family::Damaged => damaged_case(random),
            Family::Empty => empty_case(random),
            Family::Shaped => {
                let nodes = random.between(1, 30);
                let image = noise::shaped(random, nodes);
                case_of(random, image, true)
            }
            Family::Plausible => {
                let image = noise::plausible_words(random);
                case_of(random, image, true)
            }
            Family::Words => {
                let image = noise::random_words(random);
                case_of(random, image, true)
            }
            Family::Host => host_case(random),
        }
    }
}

/// A well-typed routine of at most so many nodes, at least 6.
pub fn well_typed_routine(random: &mut Random, most_nodes: usize, temper: Temper) -> Routine {
    let registers = *random.pick(&[0, 1, 1, 2, 2, 3, 4, 8, 15, 16]);
    // A room is seldom filled, so half of the routines get twice the room, the
    // others any part of it; what has become too large is written again smaller.
    let least = if random.chance(1, 2) { 2 * most_nodes } else { LEAST_COMMAND.nodes };
    let mut nodes = random.between(least, 2 * most_nodes);
    loop {
        let room = Room { nodes, levels: MOST_DEPTH as usize };
        let root = Generator { random, temper }.root(&Scope::of_registers(registers), room);
        if root.preorder().len() <= most_nodes {
            return Routine { registers, root };
        }
        nodes = (nodes * 7 / 8).max(LEAST_COMMAND.nodes);
    }
}

/// A well-typed case; one in 32 has no node.
fn well_typed_case(random: &mut Random, most_nodes: usize) -> Case {
    if random.chance(1, 32) {
        let image = empty::without_nodes(random);
        return case_of(random, image, false);
    }
    let temper = if random.chance(3, 4) { Temper::Calm } else { Temper::Wild };
    let image = encode(&well_typed_routine(random, most_nodes, temper));
    case_of(random, image, temper == Temper::Calm)
}

/// A case of a command that a generator writes; one in three with a change.
fn changed_case(
    random: &mut Random,
    written: fn(&mut Generator, &Scope) -> Command,
    changed: fn(&mut Random, &[u32]) -> Vec<u32>,
) -> Case {
    let temper = if random.chance(3, 4) { Temper::Calm } else { Temper::Faulty };
    let registers = *random.pick(&[0, 1, 2, 4, 16]);
    let root = written(&mut Generator { random, temper }, &Scope::of_registers(registers));
    let mut image = encode(&Routine { registers, root: Root::Command(root) });
    if random.chance(1, 3) {
        image = changed(random, &image);
    }
    case_of(random, image, true)
}

/// A case that divides; the starting values are of either sign, and of every size.
fn divisions_case(random: &mut Random) -> Case {
    let registers = random.between(1, 4) as u32;
    let scope = Scope::of_registers(registers);
    let root = Generator { random, temper: Temper::Wild }.divisions(&scope);
    let mut case = case_of(random, encode(&Routine { registers, root }), false);
    for start in &mut case.registers {
        *start = divisions::position(random);
    }
    case
}

/// A case whose registers may be known within limits, as `starts::starts` gives them.
fn ranges_case(random: &mut Random) -> Case {
    let temper = if random.chance(1, 2) { Temper::Straight } else { Temper::Risky };
    let registers = *random.pick(&[0, 1, 2, 2, 3, 4, 8, 16]);
    let root = Generator { random, temper }.ranges(&Scope::of_registers(registers));
    case_of(random, encode(&Routine { registers, root }), true)
}

fn damaged_case(random: &mut Random) -> Case {
    let most_nodes = *random.pick(&[10, 20, 40, 40, 300, 2_000]);
    let image = encode(&well_typed_routine(random, most_nodes, Temper::Calm));
    let image = damage::damage(random, &image);
    case_of(random, image, true)
}

fn empty_case(random: &mut Random) -> Case {
    let image = empty::near_empty(random);
    let mut case = case_of(random, image, false);
    case.budget = *random.pick(&[0, 0, 1, 2, 1_000, MOST_BUDGET - 1, MOST_BUDGET]);
    if random.chance(1, 3) {
        add_faults_of_the_host(random, &mut case);
    }
    case
}

/// A case with as many starting values as its image has registers, small ones or
/// any, and a budget that is mostly the greatest.
fn case_of(random: &mut Random, image: Vec<u32>, small: bool) -> Case {
    let count = image.get(1).map_or(0, |registers| (*registers).min(MOST_REGISTERS));
    let registers = (0..count).map(|_| starting_value(random, small)).collect();
    let budget = match random.below(4) {
        0 => random.below(200) as u64,
        _ => MOST_BUDGET,
    };
    Case { image, registers, budget, work_length: WORK_WORDS }
}

/// A case with one or more faults of the host; its image may have faults too.
fn host_case(random: &mut Random) -> Case {
    let mut case =
        if random.chance(1, 2) { well_typed_case(random, 20) } else { damaged_case(random) };
    add_faults_of_the_host(random, &mut case);
    case
}

/// One fault or more: of the register slice, the budget, the work slice.
fn add_faults_of_the_host(random: &mut Random, case: &mut Case) {
    let faults = random.between(1, 7);
    if faults & 1 != 0 {
        let registers = case.registers.len();
        let count = match random.below(3) {
            0 => registers + 1,
            1 => registers.saturating_sub(1),
            _ => random.below(20),
        };
        case.registers = (0..count).map(|_| starting_value(random, false)).collect();
    }
    if faults & 2 != 0 {
        case.budget = *random.pick(&[MOST_BUDGET + 1, 1 << 32, u64::MAX]);
    }
    if faults & 4 != 0 {
        case.work_length = *random.pick(&[0, 1, WORK_WORDS - 1, WORK_WORDS, WORK_WORDS + 1]);
    }
}
