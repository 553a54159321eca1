//! The figures on both sides of the limits: a run is withheld for 33, 34, 35 or 36 where one
//! is above, if it comes by, and is never where none is.

use crate::helpers::*;
use crate::towers::*;
use second::build::*;
use second::encode;
use second::engine::MOST_BUDGET;
use second::generate::tower::{Layer, Tower, HELPER};
use second::needs::{Figures, Needs, Steps};
use second::state::Heights;
use second::tree::*;

fn set() -> Command {
    assign(0, num(1))
}

fn figures(image: &[u32]) -> Figures {
    match needed(image) {
        Needs::Figures(figures) => figures,
        other => panic!("{other:?}"),
    }
}

/// The room figures of a tower, whose run is withheld for this reason, or not.
fn room(tower: &Tower, reason: Option<u32>) -> Heights {
    let image = encode(&tower.routine());
    let (reply, _) = run_at(&image, &vec![0; tower.registers], MOST_BUDGET);
    assert_eq!(reply.refusal().map(|refusal| refusal.number), reason);
    figures(&image).room
}

/// What runs at the top of a tower needs so much more on either stack. The tower's own last
/// Blk has had 3 more than there is then on control.
#[test]
fn towers_and_what_runs_on_them() {
    let tests = [
        (set(), 3, 2),
        (assign(0, sum(num(1), num(1))), 3, 3),
        (cond(boo(true), set(), set()), 3, 2),
        (blk(bind(1, num(1)), set()), 4, 4),
        (blk(bind_ref(1, num(1)), set()), 5, 4),
        (call(HELPER, vec![]), 5, 6),
    ];
    for (inner, more_control, more_values) in tests {
        for (values, control) in [(100, 60), (200, 120), (510, 400), (600, 350)] {
            let room = figures(&encode(&tower(values, control, inner.clone()).routine())).room;
            assert_eq!(room.control, control + more_control, "{values}, {control}");
            assert_eq!(room.values, values + more_values, "{values}, {control}");
        }
    }
}

#[test]
fn control_entries_512_and_513() {
    assert_eq!(room(&tower(100, 511, set()), None).control, 512);
    assert_eq!(room(&tower(100, 512, set()), Some(36)).control, 513);
    let nested = || assign(0, sum(sum(num(1), num(1)), num(1)));
    assert_eq!(room(&tower(100, 507, nested()), None).control, 512);
    assert_eq!(room(&tower(100, 508, nested()), Some(36)).control, 513);
    let with_actuals = |control| {
        let mut tower = tower(100, control, call(HELPER, vec![num(0); 8]));
        tower.helper_formals = 8;
        tower
    };
    assert_eq!(room(&with_actuals(504), None).control, 512);
    assert_eq!(room(&with_actuals(505), Some(36)).control, 513);
}

#[test]
fn value_entries_512_and_513() {
    assert_eq!(room(&tower(510, 400, set()), None).values, 512);
    let pair = || assign(0, sum(num(1), num(1)));
    assert_eq!(room(&tower(510, 400, pair()), Some(35)).values, 513);
    assert_eq!(
        room(&tower(508, 400, assign(0, sum(num(1), sum(num(1), num(1))))), None).values,
        512
    );
    // A call: two saved, and three in the helper's Blk, then four.
    assert_eq!(room(&tower(506, 400, call(HELPER, vec![])), None).values, 512);
    assert_eq!(room(&tower(508, 400, call(HELPER, vec![])), Some(35)).values, 514);
}

/// A tower of so many registers and functions, whose blocks bind so many names in all, each a
/// cell or not.
fn tower_of_names(registers: usize, functions: usize, names: usize, cells: bool) -> Tower {
    let layer = |count| match cells {
        true => Layer::Block { plain: 0, cells: count },
        false => Layer::Block { plain: count, cells: 0 },
    };
    let mut layers: Vec<Layer> = vec![layer(20); names / 20];
    layers.extend((!names.is_multiple_of(20)).then(|| layer(names % 20)));
    Tower { registers, functions, formals: 3, helper_formals: 0, layers, inner: set() }
}

#[test]
fn cells_256_and_257() {
    for (registers, functions) in [(1, 0), (1, 3), (16, 2)] {
        for (cells, reason) in [(255, None), (256, None), (257, Some(33)), (300, Some(33))] {
            let tower = tower_of_names(registers, functions, cells - registers, true);
            assert_eq!(room(&tower, reason).cells, cells);
        }
    }
}

#[test]
fn bindings_512_and_513() {
    for (registers, functions) in [(1, 0), (1, 3), (16, 2)] {
        for (bindings, reason) in [(511, None), (512, None), (513, Some(34)), (530, Some(34))] {
            // The helper's name; each function's own, its Formals and its local.
            let others = registers + 1 + 5 * functions;
            let tower = tower_of_names(registers, functions, bindings - others, false);
            assert_eq!(room(&tower, reason).bindings, bindings);
        }
    }
}

/// A figure above its limit says nothing of a run that takes another way.
#[test]
fn a_run_may_take_another_way() {
    let high = tower(100, 512, set());
    let Root::Command(command) = high.routine().root else { panic!("a tower is a command") };
    let apart = |test| image(1, cond(test, command.clone(), set()));
    for test in [boo(true), boo(false)] {
        assert_eq!(figures(&apart(test)).room.control, 513);
    }
    let refusal = |image: &[u32]| run_at(image, &[0], MOST_BUDGET).0.refusal();
    assert_eq!(refusal(&apart(boo(true))).map(|refusal| refusal.number), Some(36));
    assert_eq!(refusal(&apart(boo(false))), None);
    let never = image(1, repeat(boo(false), command.clone()));
    assert_eq!(figures(&never).steps, Steps::Open);
    // The Loop lies below its command.
    assert_eq!(figures(&never).room.control, 514);
    assert_eq!(refusal(&never), None);
}

/// The largest image: 667 Assigns under CSeqs, nine of them first commands of each other.
#[test]
fn two_thousand_nodes() {
    let image = encode(&second::generate::limits::with_nodes(2_000));
    assert_eq!(needed(&image), given(11, 2, 1, 1, 3 * 667 + 666));
}
