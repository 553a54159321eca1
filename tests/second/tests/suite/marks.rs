//! The high marks of a run: the most cells, bindings, value entries and control entries over
//! all states reached, the first included and the withheld step's not.

use crate::helpers::*;
use crate::limits::{bindings, cells};
use crate::refused_images::refused_images;
use crate::towers::*;
use second::build::*;
use second::encode;
use second::encode::{bytes_of, register_bytes};
use second::engine::{Reply, MOST_BUDGET, WORK_WORDS};
use second::execution::Execution;
use second::generate::tower::{Tower, HELPER};
use second::needs::Needs;
use second::reader::read;
use second::state::{Heights, State};
use second::tree::*;
use second::Refusal;

fn set() -> Command {
    assign(0, num(1))
}

/// The four heights of a state, counted here: in the order of the program's line.
fn counted(state: &State) -> [usize; 4] {
    let cells = state.store.live_locations().len();
    [cells, state.bindings, state.values.len(), state.control.len()]
}

/// The most of each over these states, each looked for by itself.
fn most_over(states: &[[usize; 4]]) -> Heights {
    let most = |index: usize| states.iter().map(|state| state[index]).max().unwrap();
    Heights::new(most(0), most(1), most(2), most(3))
}

/// The heights of every state of a run, the first included.
fn states(image: &[u32], starts: &[i64]) -> Vec<[usize; 4]> {
    let routine = read(image).unwrap();
    let mut states = Vec::new();
    Execution::start(&routine, starts, MOST_BUDGET).finish(|at| states.push(counted(at.state())));
    states
}

/// The marks at budget 0, 1, 2, and so on are these; the last ones stay.
fn marks_are(root: Command, starts: &[i64], table: &[(usize, usize, usize, usize)]) {
    let image = image(starts.len() as u32, root);
    for (budget, (cells, bindings, values, control)) in table.iter().enumerate() {
        let marks = run_at(&image, starts, budget as u64).0.marks;
        assert_eq!(marks, Heights::new(*cells, *bindings, *values, *control), "budget {budget}");
    }
    let (cells, bindings, values, control) = *table.last().unwrap();
    let whole = run_at(&image, starts, MOST_BUDGET).0;
    assert_eq!(whole, ended(whole.steps, Heights::new(cells, bindings, values, control)));
    assert!(whole.steps >= table.len() as u64);
}

/// Case H: the cell counts from Ref's mark, the binding from Bind's.
#[test]
fn step_by_step_in_a_block() {
    let root = blk(bind_ref(1, id(0)), assign(0, sum(id(1), id(1))));
    let table = [
        (1, 1, 0, 1),
        (1, 1, 1, 4), // Blk
        (1, 1, 2, 5), // Bind
        (1, 1, 2, 6), // Ref
        (1, 1, 3, 6), // Id
        (2, 1, 3, 6), // Ref's mark
        (2, 2, 3, 6), // Bind's mark
        (2, 2, 3, 6), // Blk's first mark
        (2, 2, 3, 6), // Assign
        (2, 2, 3, 6), // Sum
        (2, 2, 4, 6), // Id
        (2, 2, 5, 6), // Id
    ];
    marks_are(root, &[5], &table);
}

/// Case I: the Formal counts from the call's mark.
#[test]
fn step_by_step_in_a_function() {
    let body = block(bind_ref(3, id(2)), assign(0, id(3)));
    let root = blk(bind_abs(1, &[(2, 0)], body), call(1, vec![num(7)]));
    let table = [
        (1, 1, 0, 1),
        (1, 1, 1, 4), // Blk
        (1, 1, 2, 5), // Bind
        (1, 1, 3, 5), // Abs
        (1, 2, 3, 5), // Bind's mark
        (1, 2, 3, 5), // Blk's first mark
        (1, 2, 3, 5), // Call
        (1, 2, 3, 5), // Num
        (1, 3, 4, 5), // Call's mark
        (1, 3, 5, 6), // the function's Blk
        (1, 3, 6, 7), // Bind
        (1, 3, 6, 8), // Ref
        (1, 3, 7, 8), // Id
        (2, 3, 7, 8), // Ref's mark
        (2, 4, 7, 8), // Bind's mark
        (2, 4, 7, 8), // Blk's first mark
        (2, 4, 7, 8), // Assign
        (2, 4, 8, 8), // Id
    ];
    marks_are(root, &[0], &table);
}

/// Trees of every kind of command and declaration, each with one register.
fn trees() -> Vec<Command> {
    let high = || blk(declarations((1..6).map(|name| bind_ref(name, num(1))).collect()), set());
    let low = || assign(0, sum(id(0), num(1)));
    let body = block(bind_ref(5, sum(id(3), id(4))), assign(0, id(5)));
    let function = bind_abs(2, &[(3, 0), (4, 0)], body);
    vec![
        set(),
        assign(0, sum(num(1), sum(num(2), mul(num(3), num(4))))),
        cseq(high(), low()),
        cseq(low(), high()),
        blk(function.clone(), cseq(call(2, vec![num(1), id(0)]), low())),
        blk(dseq(bind(1, num(1)), dseq(bind_ref(2, id(1)), bind(3, id(2)))), assign(0, id(3))),
        cond(lt(id(0), num(5)), high(), low()),
        cond(gt(id(0), num(5)), high(), low()),
        repeat(lt(id(0), num(4)), low()),
        // The third round goes highest, the fourth not.
        repeat(lt(id(0), num(4)), cond(eq(id(0), num(2)), cseq(high(), assign(0, num(3))), low())),
    ]
}

/// Each budget's marks are the most over the states until there.
#[test]
fn every_budget_has_the_most_so_far() {
    for root in trees() {
        let image = image(1, root);
        let states = states(&image, &[0]);
        for budget in 0..states.len() {
            let (reply, _) = run_at(&image, &[0], budget as u64);
            assert_eq!(reply.steps, budget as u64);
            assert_eq!(reply.marks, most_over(&states[..=budget]), "budget {budget}");
        }
    }
}

/// The first state is counted: alone where no step is made.
#[test]
fn the_first_state() {
    for registers in 0..=16 {
        let starts = vec![-3; registers];
        let first = Heights::new(registers, registers, 0, 1);
        for root in [Root::from(num(1)), sum(num(1), num(2)).into()] {
            let image = image(registers as u32, root);
            assert_eq!(run_at(&image, &starts, 0).0, withheld(30, 0, first));
        }
        let block =
            image(registers as u32, blk(bind(20, num(1)), blk(bind(21, num(2)), nothing())));
        assert_eq!(run_at(&block, &starts, 0).0, withheld(30, 0, first));
        // With no routine it is the last one too.
        let slot = image(registers as u32, absent());
        for budget in [0, 1, MOST_BUDGET] {
            let only = Heights::new(registers, registers, 0, 0);
            assert_eq!(run_at(&slot, &starts, budget).0, ended(0, only));
        }
    }
}

/// A command without registers: a cell that is set to itself.
fn nothing() -> Command {
    blk(bind_ref(22, num(1)), assign(22, id(22)))
}

/// Where nothing is made but in a block that is left, its cells and bindings stay the most.
#[test]
fn what_is_left_again_stays_the_most() {
    let cell = || blk(bind_ref(1, num(1)), set());
    let cells = blk(bind_ref(1, num(1)), blk(bind_ref(2, num(2)), set()));
    let marks = |root| run_tree(root, &[0]).0.marks;
    let (one, two) = (marks(cell()), marks(cells.clone()));
    assert_eq!((one.cells, one.bindings, two.cells, two.bindings), (2, 2, 3, 3));
    // Two one after the other are no more than one; within each other they are.
    let after = marks(cseq(cell(), cell()));
    assert_eq!((after.cells, after.bindings), (2, 2));
    for root in [cseq(cells.clone(), cell()), cseq(cell(), cells)] {
        let after = marks(root);
        assert_eq!((after.cells, after.bindings), (3, 3));
    }
    // A thousand rounds drift nowhere.
    let down = || cseq(cell(), assign(1, sub(id(1), num(1))));
    let rounds = |count| run_tree(repeat(gt(id(1), num(0)), down()), &[0, count]).0.marks;
    assert_eq!(rounds(1), rounds(1_000));
    assert_ne!(rounds(0), rounds(1));
}

/// A run that meets 31 or 32 has the marks until then.
#[test]
fn a_fault_has_the_marks_until_then() {
    let cell = || blk(bind_ref(1, num(1)), set());
    // Blk's Ref has 6 on control, and one more behind CSeq.
    let zero = cseq(cell(), assign(0, div(num(1), num(0))));
    let (reply, _) = run_tree(zero, &[0]);
    assert_eq!(reply, withheld(31, reply.steps, Heights::new(2, 2, 4, 7)));
    let over = cseq(cell(), assign(0, mul(id(1), id(1))));
    let (reply, _) = run_tree(over, &[0, i64::MIN]);
    assert_eq!(reply, withheld(32, reply.steps, Heights::new(3, 3, 4, 7)));
    // Before any step that raises them.
    let (reply, _) = run_tree(cseq(assign(0, div(num(1), num(0))), cell()), &[0]);
    assert_eq!(reply, withheld(31, 5, Heights::new(1, 1, 3, 5)));
}

/// The marks of a run withheld for this reason of room: the most over its states, which the
/// withheld step would have raised.
fn without_room(tower: &Tower, reason: u32) -> Heights {
    let (image, starts) = (encode(&tower.routine()), vec![0; tower.registers]);
    let (reply, _) = run_at(&image, &starts, MOST_BUDGET);
    assert_eq!(reply.refusal(), Some(Refusal::whole(reason)));
    assert_eq!(reply.marks, most_over(&states(&image, &starts)));
    let routine = read(&image).unwrap();
    let mut execution = Execution::start(&routine, &starts, MOST_BUDGET);
    execution.finish(|_| {});
    assert!(!after(execution.state()).within(reply.marks));
    reply.marks
}

#[test]
fn a_withheld_cell_is_not_counted() {
    for registers in [1, 16] {
        assert_eq!(without_room(&cells(registers, 256 - registers), 33).cells, 256);
    }
}

/// Of a call's 8 Formals none is counted either.
#[test]
fn a_withheld_binding_is_not_counted() {
    let block = || blk(bind(1, num(5)), assign(0, id(1)));
    for registers in [1, 16] {
        assert_eq!(without_room(&bindings(registers, 512, 0, block()), 34).bindings, 512);
    }
    for count in 505..=512 {
        let call_of_8 = call(HELPER, vec![num(0); 8]);
        assert_eq!(without_room(&bindings(1, count, 8, call_of_8), 34).bindings, count);
    }
}

#[test]
fn a_withheld_value_entry_is_not_counted() {
    assert_eq!(without_room(&tower(510, 400, assign(0, sum(num(1), num(1)))), 35).values, 512);
    assert_eq!(without_room(&tower(510, 400, call(HELPER, vec![])), 35).values, 512);
}

/// Of the entries that a step puts on control at once none is counted.
#[test]
fn a_withheld_control_entry_is_not_counted() {
    assert_eq!(without_room(&tower(100, 512, set()), 36).control, 512);
    // A Call's 8 actuals and its mark; no state before has more than it starts with.
    for control in 505..=512 {
        let mut call_of_8 = tower(100, control, call(HELPER, vec![num(0); 8]));
        call_of_8.helper_formals = 8;
        assert_eq!(without_room(&call_of_8, 36).control, control);
    }
}

/// One step that neither stack has room for, a function's Blk. The call's mark before it has
/// left 512 on V and one more on control than the call.
#[test]
fn a_step_withheld_by_both_stacks_is_not_counted() {
    for control in [509, 510, 511] {
        let marks = without_room(&tower(510, control, call(HELPER, vec![])), 36);
        assert_eq!((marks.values, marks.control), (512, control + 1));
    }
}

/// Exactly the limits, in runs that end.
#[test]
fn the_limits_themselves_are_counted() {
    let whole = |tower: &Tower| {
        let starts = vec![0; tower.registers];
        let (reply, _) = run_at(&encode(&tower.routine()), &starts, MOST_BUDGET);
        assert_eq!(reply, ended(reply.steps, reply.marks));
        reply.marks
    };
    assert_eq!(whole(&cells(16, 239)).cells, 256);
    let block = blk(bind(1, num(5)), assign(0, id(1)));
    assert_eq!(whole(&bindings(16, 511, 0, block)).bindings, 512);
    assert_eq!(whole(&tower(510, 400, set())).values, 512);
    assert_eq!(whole(&tower(100, 511, set())).control, 512);
}

/// The image's own refusals, and the host's, with registers or without.
#[test]
fn refused_calls_have_no_marks() {
    for (number, place, image) in refused_images() {
        let starts = vec![7; image.get(1).map_or(0, |count| *count as usize).min(16)];
        let (reply, registers) = run_at(&image, &starts, MOST_BUDGET);
        assert_eq!((reply, registers), (not_run(number, place), starts));
    }
    for registers in [0, 1, 16] {
        let image = image(registers, num(1));
        let on_bytes = |count: usize, budget, work_length| -> Reply {
            let starts = register_bytes(&vec![7; count]);
            run_bytes(&bytes_of(&image), &starts, budget, work_length).0
        };
        let right = registers as usize;
        for count in [right + 1, 17, 0].into_iter().filter(|count| *count != right) {
            assert_eq!(run_at(&image, &vec![7; count], MOST_BUDGET).0, not_run(20, 0));
            assert_eq!(on_bytes(count, MOST_BUDGET, WORK_WORDS), not_run(20, 0));
        }
        let starts = vec![7; right];
        assert_eq!(run_at(&image, &starts, MOST_BUDGET + 1).0, not_run(21, 0));
        assert_eq!(on_bytes(right, MOST_BUDGET + 1, WORK_WORDS), not_run(21, 0));
        assert_eq!(on_bytes(right, MOST_BUDGET, WORK_WORDS - 1), not_run(22, 0));
        // With nothing at fault the first state is there.
        let marks = Heights::new(right, right, 1, 1);
        assert_eq!(run_at(&image, &starts, MOST_BUDGET).0.marks, marks);
        assert_eq!(on_bytes(right, MOST_BUDGET, WORK_WORDS).marks, marks);
    }
}

/// The marks of a run, and the room figures of its needs.
fn marks_and_needs(root: Command) -> (Heights, Heights) {
    let marks = run_tree(root.clone(), &[0]).0.marks;
    let Needs::Figures(figures) = needed_tree(1, root) else { panic!("there are figures") };
    (marks, figures.room)
}

/// No mark is above its figure; without Loop and Cond all are equal.
#[test]
fn marks_are_within_the_needs() {
    for root in trees() {
        let straight = !matches!(root, Command::Loop(_) | Command::Cond(_));
        let (marks, needs) = marks_and_needs(root);
        assert!(marks.within(needs), "{marks:?} in {needs:?}");
        assert!(!straight || marks == needs, "{marks:?} and {needs:?}");
    }
}

/// A command that is not run raises no mark, and its need is there all the same.
#[test]
fn marks_are_below_the_needs_where_a_command_is_not_run() {
    let cell = || blk(bind_ref(1, num(1)), assign(0, sum(id(1), id(1))));
    let needed = Heights::new(2, 2, 5, 6);
    for root in [cond(boo(true), set(), cell()), cond(boo(false), cell(), set())] {
        assert_eq!(marks_and_needs(root), (Heights::new(1, 1, 2, 2), needed));
    }
    // A Loop has itself below its command.
    let needs_of_loop = Heights::new(2, 2, 5, 7);
    assert_eq!(
        marks_and_needs(repeat(boo(false), cell())),
        (Heights::new(1, 1, 2, 2), needs_of_loop)
    );
    // And where the run is cut off before it.
    let image = image(1, cell());
    assert_eq!(run_at(&image, &[0], 1).0.marks, Heights::new(1, 1, 1, 4));
}
