//! Limits: 256 cells, 512 bindings, 512 entries on each stack. Each is met from
//! both sides by each rule that can pass it, on the state after the step.

use crate::helpers::*;
use crate::towers::*;
use second::build::*;
use second::encode;
use second::engine::MOST_BUDGET;
use second::execution::Execution;
use second::generate::tower::{Layer, Tower, BLOCK, HELPER};
use second::reader::read;
use second::state::ControlEntry;
use second::tree::*;

/// The heights a tower promises are those its inner command meets.
#[test]
fn towers_are_as_high_as_they_say() {
    let inner = assign(0, num(424_242));
    let met = |tower: Tower| {
        let routine = read(&encode(&tower.routine())).unwrap();
        let mut heights = None;
        Execution::start(&routine, &vec![0; tower.registers], MOST_BUDGET).finish(|at| {
            if let Some(ControlEntry::Node(second::node::Node::Assign(node))) =
                at.state().control.last()
            {
                if node.value.form == Form::Num(424_242) {
                    heights = Some(at.state().heights());
                }
            }
        });
        assert_eq!(heights, Some(tower.heights()));
    };
    for (values, control) in [(100, 100), (100, 511), (510, 300), (510, 511), (508, 400)] {
        met(tower(values, control, inner.clone()));
    }
    let choices = [true, false].map(|first| Layer::Choice { first });
    let layers =
        [vec![Layer::Block { plain: 3, cells: 2 }, Layer::Sequence, BLOCK], choices.to_vec()]
            .concat();
    for functions in [0, 1, 3] {
        let layers = layers.clone();
        met(Tower {
            registers: 5,
            functions,
            formals: 7,
            helper_formals: 2,
            layers,
            inner: inner.clone(),
        });
    }
}

/// For each rule that makes the control stack grow: the greatest start from
/// which the inner command passes, and where it is stopped from higher starts.
#[test]
fn control_entries_512_and_513() {
    let set = || assign(0, num(1));
    let table: Vec<(Command, usize, Vec<&str>)> = vec![
        (set(), 511, vec!["Assign"]),
        (repeat(boo(false), set()), 511, vec!["Loop"]),
        (repeat(not(boo(true)), set()), 510, vec!["Not", "Loop"]),
        (cond(boo(true), set(), set()), 511, vec!["Cond"]),
        (cond(not(boo(true)), set(), set()), 510, vec!["Not", "Cond"]),
        (cseq(set(), set()), 510, vec!["Assign", "CSeq"]),
        (assign(0, sum(num(1), num(1))), 509, vec!["Sum", "Sum", "Assign"]),
        (assign(0, sum(num(1), sum(num(1), num(1)))), 508, vec!["Sum", "Sum", "Sum", "Assign"]),
        (
            assign(0, sum(sum(num(1), num(1)), num(1))),
            507,
            vec!["Sum", "Sum", "Sum", "Sum", "Assign"],
        ),
        (blk(bind(1, num(1)), set()), 508, vec!["Bind", "Blk", "Blk", "Blk"]),
        (blk(bind_ref(1, num(1)), set()), 507, vec!["Ref", "Bind", "Blk", "Blk", "Blk"]),
        (
            blk(dseq(bind(1, num(1)), bind(2, num(1))), set()),
            505,
            vec!["Bind", "DSeq", "DSeq", "DSeq", "Blk", "Blk", "Blk"],
        ),
        // Call, its mark, Blk, Bind.
        (call(HELPER, vec![]), 507, vec!["Bind", "Blk", "Blk", "Blk", "mark of Call"]),
    ];
    for (inner, greatest, stopped) in table {
        passes(&tower(100, greatest, inner.clone()));
        for (over, at) in stopped.iter().enumerate() {
            let heights = stops(&tower(100, greatest + 1 + over, inner.clone()), 36, at);
            assert!(heights.control <= 512);
        }
        // Every start up to 512 entries is covered.
        assert_eq!(greatest + stopped.len(), 512);
    }
}

/// A Call puts all its actuals and its mark on control in one step.
#[test]
fn control_entries_of_a_calls_actuals() {
    let mut call_of_8 = tower(100, 504, call(HELPER, vec![num(0); 8]));
    call_of_8.helper_formals = 8;
    passes(&call_of_8);
    let mut over = tower(100, 505, call(HELPER, vec![num(0); 8]));
    over.helper_formals = 8;
    assert_eq!(stops(&over, 36, "Call").control, 505);
}

/// At a true Loop's mark its command and itself go on control.
#[test]
fn control_entries_of_a_loop_that_goes_on() {
    let once = || repeat(lt(id(0), num(1)), assign(0, num(1)));
    // Loop and its command's Assign are 2 above the start, Lt's step is 3.
    passes(&tower(100, 509, once()));
    stops(&tower(100, 510, once()), 36, "Lt");
    let forever = repeat(boo(true), assign(0, num(1)));
    stops(&tower(100, 511, forever), 36, "Assign");
}

/// For each rule that pushes a value: V at 512 passes, 513 does not.
#[test]
fn value_entries_512_and_513() {
    let set = || assign(0, num(1));
    // Assign's name and Num: 2 above the start.
    passes(&tower(510, 400, set()));
    let stopped = |inner: Command, at: &str| {
        let heights = stops(&tower(510, 400, inner.clone()), 35, at);
        assert_eq!(heights.values, 512);
        passes(&tower(508, 400, inner));
    };
    stopped(assign(0, sum(num(1), num(1))), "Num");
    stopped(assign(0, sum(num(1), id(0))), "Id");
    stopped(repeat(and(boo(true), boo(false)), set()), "Boo");
    stopped(cond(and(boo(true), boo(false)), set(), set()), "Boo");
    // L, the name, and then the value of a Bind.
    stopped(blk(bind(1, num(1)), set()), "Num");
    stopped(blk(bind(1, deref(0)), set()), "DeRef");
    let function = bind_abs(1, &[], block(bind(2, num(0)), set()));
    stopped(blk(function, set()), "Abs");
    // L and E of the call, then L of its Blk.
    let heights = stops(&tower(510, 400, call(HELPER, vec![])), 35, "Blk");
    assert_eq!(heights.values, 512);
    // The helper's Blk needs 3 more: its L, the name, the value.
    stops(&tower(508, 400, call(HELPER, vec![])), 35, "Num");
    passes(&tower(506, 400, call(HELPER, vec![])));
    // ValRef, one block further in.
    let inner = blk(bind_ref(1, deref(0)), assign(0, sum(num(1), valref(1))));
    stops(&tower(508, 400, inner.clone()), 35, "ValRef");
    passes(&tower(506, 400, inner));
    // A name, Assign's, Loop's or Cond's own entry: never the 513th, for a command
    // starts with an even number on V and 512 of them only before a Blk.
    passes(&tower(510, 400, repeat(boo(false), set())));
    passes(&tower(510, 400, cond(boo(false), set(), set())));
}

/// Actuals are taken off V before the call's own entries go on.
#[test]
fn a_call_takes_its_actuals_off_first() {
    let with_formals = |values: usize, count: usize| {
        let mut tower = tower(values, 400, call(HELPER, vec![num(0); count]));
        tower.helper_formals = count;
        tower
    };
    // Two actuals make 512; the mark leaves 512; the Blk's L is the 513th.
    assert_eq!(stops(&with_formals(510, 2), 35, "Blk").values, 512);
    assert_eq!(stops(&with_formals(510, 3), 35, "Num").values, 512);
    // Eight actuals from 504: 512, then 506, and the Blk needs 3 more and one
    // level less for its command.
    passes(&with_formals(504, 8));
    assert_eq!(stops(&with_formals(506, 8), 35, "Num").values, 512);
}

/// A tower is stopped at this entry of control for all these reasons of room, of which the
/// first is told.
fn stops_for(tower: &Tower, all: &[u32], at: &str) {
    stops(tower, all[0], at);
    assert_eq!(reasons(tower), (Some(all[0]), all.to_vec(), at.to_string()));
}

/// When 35 and 36 both hold, 36 is the answer. It comes about only where a Blk
/// follows a Call's mark: nothing else that pushes on V with 512 there puts more
/// on control than it takes off. A DSeq puts nothing on V, and its marks nothing on
/// control.
#[test]
fn the_control_stack_is_named_first() {
    let calls = |values, control| tower(values, control, call(HELPER, vec![]));
    for control in [509, 510, 511] {
        stops_for(&calls(510, control), &[36, 35], "Blk");
        stops_for(&calls(506, control), &[36], "Blk");
    }
    stops_for(&calls(510, 508), &[35], "Blk");
    stops_for(&calls(510, 512), &[36], "mark of Call");
}

/// One actual and two are taken off V again before the Blk of their function; a third has
/// no room on V. With two the Call itself has none on control from 511 on.
#[test]
fn the_control_stack_is_named_first_with_actuals() {
    let calls = |count, control| {
        let mut tower = tower(510, control, call(HELPER, vec![num(0); count]));
        tower.helper_formals = count;
        tower
    };
    for count in [1, 2] {
        stops_for(&calls(count, 508), &[35], "Blk");
        for control in 509..=512 - count {
            stops_for(&calls(count, control), &[36, 35], "Blk");
        }
        stops_for(&calls(count, 513 - count), &[36], "Call");
    }
    stops_for(&calls(3, 509), &[35], "Num");
}

/// Blocks with so many cells beyond the registers, then one more in a block.
pub fn cells(registers: usize, count: usize) -> Tower {
    let layers = (0..count).collect::<Vec<_>>();
    let layers =
        layers.chunks(20).map(|chunk| Layer::Block { plain: 0, cells: chunk.len() }).collect();
    let inner = blk(bind_ref(1, num(5)), assign(0, id(1)));
    Tower { registers, functions: 1, formals: 0, helper_formals: 0, layers, inner }
}

#[test]
fn cells_256_and_257_registers_included() {
    for registers in [1, 16] {
        passes(&cells(registers, 255 - registers));
        let heights = stops(&cells(registers, 256 - registers), 33, "mark of Ref");
        assert_eq!(heights.cells, 256);
    }
}

/// Bindings up to so many at the inner command.
pub fn bindings(registers: usize, count: usize, helper_formals: usize, inner: Command) -> Tower {
    let mut tower =
        Tower { registers, functions: 2, formals: 3, helper_formals, layers: vec![], inner };
    let missing: Vec<_> = (tower.heights().bindings..count).collect();
    tower.layers =
        missing.chunks(20).map(|chunk| Layer::Block { plain: chunk.len(), cells: 0 }).collect();
    assert_eq!(tower.heights().bindings, count);
    tower
}

#[test]
fn bindings_512_and_513_at_a_binds_mark() {
    let block = || blk(bind(1, num(5)), assign(0, id(1)));
    for registers in [1, 16] {
        passes(&bindings(registers, 511, 0, block()));
        let heights = stops(&bindings(registers, 512, 0, block()), 34, "mark of Bind");
        assert_eq!(heights.bindings, 512);
    }
    // A cell's name and a function's name count like a plain one.
    stops(&bindings(1, 512, 0, blk(bind_ref(1, num(5)), assign(0, id(1)))), 34, "mark of Bind");
    let function = bind_abs(1, &[], block_of_helper());
    passes(&bindings(1, 511, 0, blk(function.clone(), assign(0, num(1)))));
    stops(&bindings(1, 512, 0, blk(function, assign(0, num(1)))), 34, "mark of Bind");
    // A name bound to a location by DeRef is one binding.
    stops(&bindings(1, 512, 0, blk(bind(1, deref(0)), assign(0, id(1)))), 34, "mark of Bind");
}

fn block_of_helper() -> Blk {
    block(bind(1, num(5)), assign(0, num(1)))
}

/// A Bind counts from its own mark, before the block's first mark adds its name
/// to E: of two in a DSeq, the second's mark is the one withheld.
#[test]
fn a_bind_counts_from_its_own_mark() {
    let two = blk(dseq(bind(1, num(5)), bind(2, num(6))), assign(0, id(1)));
    passes(&bindings(1, 510, 0, two.clone()));
    let start = bindings(1, 511, 0, two.clone()).heights().values;
    let heights = stops(&bindings(1, 511, 0, two.clone()), 34, "mark of Bind");
    // L, the kept E, the first Bind's environment, name and value.
    assert_eq!((heights.bindings, heights.values), (512, start + 5));
    let heights = stops(&bindings(1, 512, 0, two), 34, "mark of Bind");
    // L, name and value.
    assert_eq!((heights.bindings, heights.values), (512, start + 3));
}

#[test]
fn bindings_512_and_513_at_a_calls_mark() {
    let call_of_8 = || call(HELPER, vec![num(0); 8]);
    // The helper's Blk binds one name more.
    passes(&bindings(1, 503, 8, call_of_8()));
    assert_eq!(stops(&bindings(1, 504, 8, call_of_8()), 34, "mark of Bind").bindings, 512);
    assert_eq!(stops(&bindings(1, 505, 8, call_of_8()), 34, "mark of Call").bindings, 505);
    assert_eq!(stops(&bindings(1, 512, 8, call_of_8()), 34, "mark of Call").bindings, 512);
    // Without Formals a call binds nothing.
    assert_eq!(stops(&bindings(1, 512, 0, call(HELPER, vec![])), 34, "mark of Bind").bindings, 512);
    passes(&bindings(1, 511, 0, call(HELPER, vec![])));
}

/// What a block or a call bound counts no more when it is left.
#[test]
fn bindings_and_cells_are_given_back() {
    let block = || blk(bind_ref(1, num(5)), assign(0, id(1)));
    passes(&bindings(1, 511, 0, cseq(block(), cseq(block(), block()))));
    let call_of_8 = || call(HELPER, vec![num(0); 8]);
    passes(&bindings(1, 503, 8, cseq(call_of_8(), cseq(call_of_8(), call_of_8()))));
    let mut twice = cells(1, 254);
    twice.inner = cseq(twice.inner.clone(), twice.inner);
    passes(&twice);
    // 600 blocks and 600 calls one after the other, each in its own round.
    let count_down =
        |command| repeat(gt(id(1), num(0)), cseq(command, assign(1, sub(id(1), num(1)))));
    assert_eq!(
        registers_after(count_down(blk(bind_ref(2, num(5)), assign(0, id(2)))), &[0, 600]),
        [5, 0]
    );
    let formals: Vec<_> = (10..18).map(|name| (name, 0)).collect();
    let function = bind_abs(3, &formals, block_of_helper());
    let root = blk(function, count_down(call(3, vec![num(1); 8])));
    assert_eq!(registers_after(root, &[0, 600]), [1, 0]);
}

/// What was stored before a step was withheld stays stored.
#[test]
fn registers_are_as_before_the_withheld_step() {
    let faults: Vec<(Command, u32)> =
        vec![(blk(bind(1, num(1)), assign(0, num(88))), 36), (assign(0, sum(num(1), num(88))), 36)];
    for (fault, reason) in faults {
        let tower = tower(100, 509, cseq(assign(0, num(77)), cseq(fault, assign(0, num(99)))));
        let (reply, registers) = run_at(&encode(&tower.routine()), &[0], MOST_BUDGET);
        assert_eq!(reply.refusal().map(|refusal| refusal.number), Some(reason));
        assert_eq!(registers, [77]);
    }
    let tower = tower(510, 400, cseq(assign(0, num(77)), assign(0, sum(num(1), num(88)))));
    let (reply, registers) = run_at(&encode(&tower.routine()), &[0], MOST_BUDGET);
    assert_eq!(reply.refusal().map(|refusal| refusal.number), Some(35));
    assert_eq!(registers, [77]);
}

/// The same at a call that both stacks have no room for. What comes behind it is an entry
/// of control, so the call stands one higher than the tower says.
#[test]
fn registers_are_as_before_the_step_that_both_stacks_withhold() {
    let inner = || cseq(assign(0, num(77)), cseq(call(HELPER, vec![]), assign(0, num(99))));
    for (control, reason) in [(507, 35), (508, 36), (509, 36), (510, 36)] {
        let image = encode(&tower(510, control, inner()).routine());
        let (reply, registers) = run_at(&image, &[5], MOST_BUDGET);
        let withheld = |reason| withheld(reason, reply.steps, reply.marks);
        assert_eq!((reply, registers), (withheld(reason), vec![77]));
        // The budget comes before both: it is used up after the call's mark.
        let cut = run_at(&image, &[5], reply.steps);
        assert_eq!(cut, (withheld(30), vec![77]));
        let just = run_at(&image, &[5], reply.steps + 1);
        assert_eq!(just, (withheld(reason), vec![77]));
    }
}
