//! The high marks of the engine's runs: over all states reached and no other, each at its own
//! place of the reply, and none left over from another call. The figures are written down
//! here, or counted in the states of the second interpreter's execution.

use crate::helpers::*;
use compare::engine::{self, RunReply};
use compare::run::as_words;
use compare::sample::SHORT_RUN;
use second::build::*;
use second::encode;
use second::encode::{bytes_of, register_bytes};
use second::engine::{pass, MOST_BUDGET, WORK_WORDS};
use second::execution::Execution;
use second::generate::tower::{Layer, Tower, HELPER};
use second::generate::{Case, Family};
use second::tree::{Command, Routine};

/// A host that lends the same work words to every call.
struct Host {
    work: Vec<u64>,
}

impl Host {
    fn new() -> Host {
        Host { work: vec![u64::MAX; WORK_WORDS] }
    }

    /// The engine's reply, the same on words and on bytes.
    fn run(&mut self, image: &[u32], starts: &[i64], budget: u64) -> RunReply {
        self.run_with(image, starts, budget, WORK_WORDS)
    }

    /// The same with the first of its work words, so many of them.
    fn run_with(&mut self, image: &[u32], starts: &[i64], budget: u64, words: usize) -> RunReply {
        let work = &mut self.work[..words];
        let reply = engine::run(image, &mut as_words(starts), budget, work);
        let (image, mut registers) = (bytes_of(image), register_bytes(starts));
        assert_eq!(engine::run_bytes(&image, &mut registers, budget, work), reply);
        reply
    }
}

/// The marks of one run.
fn marks(image: &[u32], starts: &[i64], budget: u64) -> [u64; 4] {
    Host::new().run(image, starts, budget).marks()
}

/// Case I at each budget: cells, bindings, value entries and control entries are four
/// numbers from its tenth step on, so that none can stand in another's place.
#[test]
fn step_by_step_in_a_function() {
    let table = [
        [1, 1, 0, 1],
        [1, 1, 1, 4], // Blk
        [1, 1, 2, 5], // Bind
        [1, 1, 3, 5], // Abs
        [1, 2, 3, 5], // Bind's mark
        [1, 2, 3, 5], // Blk's first mark
        [1, 2, 3, 5], // Call
        [1, 2, 3, 5], // Num
        [1, 3, 4, 5], // Call's mark
        [1, 3, 5, 6], // the function's Blk
        [1, 3, 6, 7], // Bind
        [1, 3, 6, 8], // Ref
        [1, 3, 7, 8], // Id
        [2, 3, 7, 8], // Ref's mark
        [2, 4, 7, 8], // Bind's mark
        [2, 4, 7, 8], // Blk's first mark
        [2, 4, 7, 8], // Assign
        [2, 4, 8, 8], // Id
        [2, 4, 8, 8], // Assign's mark
        [2, 4, 8, 8], // Blk's second mark
        [2, 4, 8, 8], // the mark behind the function's Blk
        [2, 4, 8, 8], // Blk's second mark
    ];
    let image = papers_image("I");
    for (budget, expected) in table.into_iter().enumerate() {
        assert_eq!(marks(&image, &[9], budget as u64), expected, "budget {budget}");
    }
    assert_eq!(marks(&image, &[9], MOST_BUDGET), [2, 4, 8, 8]);
}

/// The first state is counted: alone at budget 0, and where there is no routine.
#[test]
fn the_first_state() {
    for registers in 0..=16 {
        let (count, starts) = (u64::from(registers), vec![-1; registers as usize]);
        let roots = [num(1), sum(num(1), num(2)), not(boo(true))];
        for root in roots {
            assert_eq!(marks(&image(registers, root), &starts, 0), [count, count, 0, 1]);
        }
        let block = blk(bind_ref(20, num(1)), assign(20, num(2)));
        assert_eq!(marks(&image(registers, block), &starts, 0), [count, count, 0, 1]);
        for budget in [0, 1, MOST_BUDGET] {
            assert_eq!(marks(&[0, registers], &starts, budget), [count, count, 0, 0]);
        }
    }
}

/// The heights of each state of a run, counted in the second interpreter's execution.
fn states(routine: &Routine, starts: &[i64], budget: u64) -> Vec<[u64; 4]> {
    let mut states = Vec::new();
    Execution::start(routine, starts, budget).finish(|at| {
        let state = at.state();
        let cells = state.store.live_locations().len();
        let heights = [cells, state.bindings, state.values.len(), state.control.len()];
        states.push(heights.map(|height| height as u64));
    });
    states
}

/// Each budget of short runs has the most over the states until there.
#[test]
fn every_budget_has_the_most_so_far() {
    let (mut runs, mut raised) = (0, [0; 4]);
    let families = [Family::Small, Family::Sequences, Family::Choices, Family::Functions];
    for family in families {
        for seed in 0..150 {
            let Case { image, registers: starts, .. } = family.case(0x3a4 + seed);
            let Ok((routine, _)) = pass(&image) else { continue };
            let states = states(&routine, &starts, SHORT_RUN);
            let mut host = Host::new();
            let mut most = [0; 4];
            for (budget, state) in states.iter().enumerate() {
                for (index, (most, height)) in most.iter_mut().zip(state).enumerate() {
                    raised[index] += u32::from(budget > 0 && height > most);
                    *most = (*most).max(*height);
                }
                let reply = host.run(&image, &starts, budget as u64);
                let expected = (budget as u64, most);
                assert_eq!((reply.steps, reply.marks()), expected, "{family:?} {seed}");
            }
            runs += 1;
        }
    }
    assert!(runs >= 400 && raised.iter().all(|times| *times >= 300), "{runs}, {raised:?}");
}

/// The reply to a tower's run.
fn of_tower(tower: &Tower) -> RunReply {
    let starts = vec![0; tower.registers];
    Host::new().run(&encode(&tower.routine()), &starts, MOST_BUDGET)
}

/// So many cells or plain names in blocks of 20, and a command in the last of them.
fn in_blocks(registers: usize, count: usize, cells: bool, inner: Command) -> Tower {
    let names: Vec<usize> = (0..count).collect();
    let layer = |chunk: &[usize]| match cells {
        true => Layer::Block { plain: 0, cells: chunk.len() },
        false => Layer::Block { plain: chunk.len(), cells: 0 },
    };
    let layers = names.chunks(20).map(layer).collect();
    Tower { registers, functions: 2, formals: 0, helper_formals: 8, layers, inner }
}

/// 256 cells are the most, whether a 257th is asked for or not.
#[test]
fn a_withheld_cell_is_not_counted() {
    let inner = || blk(bind_ref(1, num(5)), assign(0, id(1)));
    for registers in [1, 16] {
        for (count, refusal) in [(254, 0), (255, 0), (256, 33)] {
            let reply = of_tower(&in_blocks(registers, count - registers, true, inner()));
            let most = if count == 254 { 255 } else { 256 };
            assert_eq!((reply.refusal, reply.cells), (refusal, most), "{registers}, {count}");
        }
    }
}

/// 512 bindings are the most; of a call's 8 Formals that have no room none is counted.
#[test]
fn a_withheld_binding_is_not_counted() {
    let block = || blk(bind(1, num(5)), assign(0, id(1)));
    for registers in [1, 16] {
        let bound = in_blocks(registers, 0, false, block()).heights().bindings;
        for (count, refusal, most) in [(510, 0, 511), (511, 0, 512), (512, 34, 512)] {
            let reply = of_tower(&in_blocks(registers, count - bound, false, block()));
            assert_eq!((reply.refusal, reply.bindings), (refusal, most), "{registers}, {count}");
        }
        for count in 505..=512 {
            let call_of_8 = call(HELPER, vec![num(0); 8]);
            let reply = of_tower(&in_blocks(registers, count - bound, false, call_of_8));
            assert_eq!((reply.refusal, reply.bindings), (34, count as u64), "{registers}");
        }
    }
}

/// 512 entries of V are the most.
#[test]
fn a_withheld_value_entry_is_not_counted() {
    let two = || assign(0, sum(num(1), num(1)));
    for (values, refusal, most) in [(506, 0, 509), (508, 0, 511), (510, 35, 512)] {
        let reply = of_tower(&Tower::reaching(values, 400, 11, two()));
        assert_eq!((reply.refusal, reply.values), (refusal, most), "{values}");
    }
    let one = of_tower(&Tower::reaching(510, 400, 11, assign(0, num(1))));
    assert_eq!((one.refusal, one.values), (0, 512));
}

/// 512 entries of control are the most; of those that one step puts there none is counted.
#[test]
fn a_withheld_control_entry_is_not_counted() {
    for (control, refusal, most) in [(510, 0, 511), (511, 0, 512), (512, 36, 512)] {
        let reply = of_tower(&Tower::reaching(100, control, 11, assign(0, num(1))));
        assert_eq!((reply.refusal, reply.control), (refusal, most), "{control}");
    }
    // A Call's 8 actuals and its mark; no state before has more than it starts with.
    for control in 505..=512 {
        let call_of_8 = call(HELPER, vec![num(0); 8]);
        let tower = Tower { helper_formals: 8, ..Tower::reaching(100, control, 11, call_of_8) };
        let reply = of_tower(&tower);
        assert_eq!((reply.refusal, reply.control), (36, control as u64));
    }
}

/// One step that neither stack has room for, at a function's Blk: the call's mark before it
/// leaves 512 on V and one more on control than the Call.
#[test]
fn a_step_withheld_by_both_stacks_is_not_counted() {
    for (control, refusal) in [(507, 35), (508, 35), (509, 36), (510, 36), (511, 36)] {
        let reply = Host::new().run(&call_with_full_values(control), &[5], MOST_BUDGET);
        assert_eq!((reply.refusal, reply.marks()), (refusal, [1, 245, 512, control as u64 + 1]));
    }
}

/// 31 and 32 have the marks until then, also those of a block that is left.
#[test]
fn a_fault_has_the_marks_until_then() {
    let cell = || blk(bind_ref(2, num(1)), assign(0, num(1)));
    let zero = || assign(0, div(num(1), num(0)));
    let over = || assign(0, mul(id(1), id(1)));
    let table = [
        (cseq(cell(), zero()), 31, [3, 3, 4, 7]),
        (cseq(cell(), over()), 32, [3, 3, 4, 7]),
        (cseq(zero(), cell()), 31, [2, 2, 3, 5]),
        (cseq(over(), cell()), 32, [2, 2, 3, 5]),
    ];
    for (root, refusal, marks) in table {
        let reply = Host::new().run(&image(2, root), &[0, i64::MIN], MOST_BUDGET);
        assert_eq!((reply.refusal, reply.marks()), (refusal, marks));
    }
}

/// On the same work words: a run with large marks, calls that are refused, a small run.
#[test]
fn nothing_is_left_over_from_another_call() {
    let mut host = Host::new();
    let high = encode(&in_blocks(16, 230, true, assign(0, num(1))).routine());
    let set = image(1, assign(0, num(1)));
    let refused_images = [
        (1, vec![]),
        (1, vec![1, 1, 1]),
        (2, vec![1, 17, 1, 0]),
        (3, vec![1, 1, 99, 0]),
        (4, vec![1, 1, 3, 64]),
        (5, vec![1, 1, 15, 0]),
        (6, image(1, (0..64).fold(boo(true), |operand, _| not(operand)))),
        (10, image(1, assign(0, id(7)))),
        (11, image(1, assign(0, boo(true)))),
        (12, image(1, blk(dseq(bind(1, num(1)), bind(1, num(1))), assign(0, num(1))))),
        (13, image(1, blk(bind(1, num(0)), assign(1, num(0))))),
        (14, image(1, blk(bind(1, num(0)), call(1, vec![])))),
    ];
    let goes_high = |host: &mut Host| {
        let reply = host.run(&high, &[7; 16], MOST_BUDGET);
        assert_eq!((reply.refusal, reply.cells, reply.bindings), (0, 246, 251));
        assert!(reply.values > 30 && reply.control > 30, "{reply:?}");
    };
    let is_refused = |reply: RunReply, refusal: u64| {
        assert_eq!((reply.refusal, reply.steps, reply.marks()), (refusal, 0, [0; 4]));
    };
    for (refusal, image) in refused_images {
        goes_high(&mut host);
        is_refused(host.run(&image, &[7], MOST_BUDGET), refusal);
        assert_eq!(host.run(&set, &[7], MOST_BUDGET).marks(), [1, 1, 2, 2]);
    }
    goes_high(&mut host);
    is_refused(host.run(&high, &[7; 15], MOST_BUDGET), 20);
    is_refused(host.run(&high, &[7; 17], 0), 20);
    goes_high(&mut host);
    is_refused(host.run(&high, &[7; 16], MOST_BUDGET + 1), 21);
    goes_high(&mut host);
    is_refused(host.run_with(&high, &[7; 16], MOST_BUDGET, WORK_WORDS - 1), 22);
    for _ in 0..2 {
        assert_eq!(host.run(&set, &[7], MOST_BUDGET).marks(), [1, 1, 2, 2]);
        assert_eq!(host.run(&set, &[7], 0).marks(), [1, 1, 0, 1]);
        assert_eq!(host.run(&[0, 0], &[], 0).marks(), [0, 0, 0, 0]);
    }
}

/// What the work words hold before changes no mark.
#[test]
fn marks_start_from_the_first_state() {
    for fill in [0, 1, 511, 512, u64::MAX, 1 << 63] {
        let mut host = Host { work: vec![fill; WORK_WORDS] };
        assert_eq!(host.run(&CALCULATOR, &[], MOST_BUDGET).marks(), [0, 0, 3, 4], "{fill}");
    }
}
