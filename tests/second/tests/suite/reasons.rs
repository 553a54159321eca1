//! Which reason is told where a step is withheld: the first, in the paper's order, of
//! those that hold. The order says which number is told and nothing else: the steps that
//! are withheld are the same in any order.

use crate::helpers::*;
use crate::towers::tower;
use second::build::*;
use second::effect::Effect;
use second::encode;
use second::engine::{pass, MOST_BUDGET};
use second::execution::{reasons_of_room, room};
use second::generate::tower::HELPER;
use second::generate::Family;
use second::rules::apply;
use second::state::{Heights, State};
use second::tree::{Command, Routine};
use std::collections::{BTreeMap, BTreeSet};

/// The paper's order: a full control stack is named before a full V.
const ORDER: [u32; 7] = [30, 31, 32, 33, 34, 36, 35];

/// The order of the numbers.
const BY_NUMBER: [u32; 7] = [30, 31, 32, 33, 34, 35, 36];

/// All reasons that the next step from this state is withheld for, by number, where so
/// many of the budget's steps are made; the effect is the step's.
fn holding<'t>(state: &State<'t>, steps: u64, budget: u64, effect: &mut Effect<'t>) -> Vec<u32> {
    let mut all = Vec::new();
    if steps == budget {
        all.push(30);
    }
    match apply(state, effect) {
        Err(fault) => all.push(fault),
        Ok(()) => {
            let Heights { cells, bindings, values, control } = effect.heights_after(state);
            let rooms = [(cells, 256, 33), (bindings, 512, 34), (values, 512, 35)];
            for (height, most, reason) in rooms.into_iter().chain([(control, 512, 36)]) {
                if height > most {
                    all.push(reason);
                }
            }
        }
    }
    all
}

/// The first of these reasons in an order.
fn first(order: &[u32; 7], holding: &[u32]) -> Option<u32> {
    order.iter().copied().find(|reason| holding.contains(reason))
}

/// All reasons that a step is withheld for which is told to be so for this one: the first
/// of them in the paper's order.
pub fn told_first(state: &State, steps: u64, budget: u64, reason: u32) -> Vec<u32> {
    let all = holding(state, steps, budget, &mut Effect::none());
    assert_eq!(first(&ORDER, &all), Some(reason), "{all:?}");
    all
}

/// How a run ends.
#[derive(Debug, PartialEq)]
struct End {
    steps: u64,
    registers: Vec<i64>,
    /// All reasons that the next step is withheld for; none for a normal end.
    holding: Vec<u32>,
}

/// The reason that a run is told to end for, if any, where reasons are told in this order.
fn run_in(order: &[u32; 7], routine: &Routine, starts: &[i64], budget: u64) -> (Option<u32>, End) {
    let mut state = State::start(routine, starts);
    let mut effect = Effect::none();
    let (mut steps, mut all) = (0, Vec::new());
    let mut told = None;
    while !state.control.is_empty() && told.is_none() {
        all = holding(&state, steps, budget, &mut effect);
        told = first(order, &all);
        if told.is_none() {
            effect.make(&mut state);
            steps += 1;
        }
    }
    (told, End { steps, registers: state.registers(starts.len()), holding: all })
}

/// A run with reasons told in the paper's order, which is the interpreter's, and one with
/// reasons told by number: they end at the same step, with the same registers, and for
/// the same number unless both stacks are full and nothing else is wrong. Answers all
/// reasons that hold, and the steps made.
fn run_in_both(image: &[u32], starts: &[i64], budget: u64) -> (Vec<u32>, u64) {
    let (routine, _) = pass(image).expect("only what passes is run");
    let (told, end) = run_in(&ORDER, &routine, starts, budget);
    let (reply, registers) = run_at(image, starts, budget);
    assert_eq!(reply.refusal().map(|refusal| refusal.number), told);
    assert_eq!((reply.steps, &registers), (end.steps, &end.registers));
    let (by_number, same) = run_in(&BY_NUMBER, &routine, starts, budget);
    assert_eq!(end, same);
    match end.holding[..] {
        [35, 36] => assert_eq!((told, by_number), (Some(36), Some(35))),
        _ => assert_eq!(told, by_number),
    }
    (end.holding, end.steps)
}

/// How often each set of reasons was met.
type Met = BTreeMap<Vec<u32>, u32>;

fn met_often(met: &Met, least: &[(&[u32], u32)]) {
    for (reasons, often) in least {
        assert!(met.get(*reasons).is_some_and(|times| times >= often), "{reasons:?} in {met:?}");
    }
}

/// Every choice of sizes over their limits, and the reasons in the order in which they are
/// told: of cells, bindings, control and V, 0 is within the limit and 1 is over it.
#[test]
fn every_choice_of_sizes() {
    let table: [([usize; 4], &[u32]); 16] = [
        ([0, 0, 0, 0], &[]),
        ([0, 0, 0, 1], &[35]),
        ([0, 0, 1, 0], &[36]),
        ([0, 0, 1, 1], &[36, 35]),
        ([0, 1, 0, 0], &[34]),
        ([0, 1, 0, 1], &[34, 35]),
        ([0, 1, 1, 0], &[34, 36]),
        ([0, 1, 1, 1], &[34, 36, 35]),
        ([1, 0, 0, 0], &[33]),
        ([1, 0, 0, 1], &[33, 35]),
        ([1, 0, 1, 0], &[33, 36]),
        ([1, 0, 1, 1], &[33, 36, 35]),
        ([1, 1, 0, 0], &[33, 34]),
        ([1, 1, 0, 1], &[33, 34, 35]),
        ([1, 1, 1, 0], &[33, 34, 36]),
        ([1, 1, 1, 1], &[33, 34, 36, 35]),
    ];
    let choices: BTreeSet<_> = table.iter().map(|(over, _)| over).collect();
    assert_eq!(choices.len(), 16);
    for (over, reasons) in table {
        for (below, above) in [(0, 1), (1, 2), (200, 1_000)] {
            let size = |most: usize, over| if over == 1 { most + above } else { most - below };
            let sizes = Heights {
                cells: size(256, over[0]),
                bindings: size(512, over[1]),
                control: size(512, over[2]),
                values: size(512, over[3]),
            };
            assert_eq!(room(sizes), reasons.first().copied(), "{sizes:?}");
            let all: Vec<u32> = reasons_of_room(sizes).into_iter().flatten().collect();
            assert_eq!(all, reasons, "{sizes:?}");
        }
    }
}

/// Generated runs near the limits, each also with the budget used up before the step that
/// is withheld: 30 is told then.
#[test]
fn the_order_decides_the_number_alone_near_the_limits() {
    let mut met = Met::new();
    for seed in 0..600 {
        let case = Family::Limits.case(seed);
        if pass(&case.image).is_err() {
            continue;
        }
        let run = |budget| run_in_both(&case.image, &case.registers, budget);
        let (holding, steps) = run(case.budget.min(8_000));
        if let Some(33..) = holding.first() {
            assert_eq!(run(steps), ([&[30], &holding[..]].concat(), steps));
            assert_eq!(run(steps + 1), (holding.clone(), steps));
        }
        *met.entry(holding).or_default() += 1;
    }
    met_often(&met, &[(&[], 50), (&[33], 10), (&[34], 10)]);
    met_often(&met, &[(&[35], 15), (&[36], 30), (&[35, 36], 25)]);
}

/// Towers at every height of both stacks near 512, with commands that grow by each rule.
#[test]
fn the_order_decides_the_number_alone_in_towers() {
    let set = || assign(0, num(1));
    let growing: Vec<(usize, Command)> = vec![
        (0, assign(0, sum(num(1), sum(num(2), num(3))))),
        (0, cseq(set(), set())),
        (0, cond(lt(num(1), id(0)), set(), blk(bind(1, num(1)), set()))),
        (0, blk(dseq(bind(1, num(1)), bind_ref(2, deref(0))), assign(0, valref(2)))),
        (0, call(HELPER, vec![])),
        (1, call(HELPER, vec![id(0)])),
        (2, call(HELPER, vec![num(1), id(0)])),
        (3, call(HELPER, vec![num(1), num(2), id(0)])),
    ];
    let mut met = Met::new();
    for (helper_formals, inner) in growing {
        for values in (504..=510).step_by(2) {
            for control in 504..=512 {
                let mut tower = tower(values, control, inner.clone());
                tower.helper_formals = helper_formals;
                let (holding, _) = run_in_both(&encode(&tower.routine()), &[5], MOST_BUDGET);
                *met.entry(holding).or_default() += 1;
            }
        }
    }
    // Three, three and two heights of control, for no actual, one and two.
    assert_eq!(met.get(&vec![35, 36]), Some(&8), "{met:?}");
    met_often(&met, &[(&[], 30), (&[35], 30), (&[36], 30)]);
}
