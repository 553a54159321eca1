//! The limits of both stacks at a Cond: one entry more on each at its own step, none
//! behind its mark. Each limit is met at 512 and passed at 513.

use crate::towers::*;
use second::build::*;
use second::encode;
use second::engine::MOST_BUDGET;
use second::execution::{room, Execution};
use second::generate::choices::else_if;
use second::generate::tower::{Layer, HELPER};
use second::reader::read;
use second::refusal;
use second::state::{ControlEntry, Mark, State, ValueEntry};
use second::store::Value;
use second::tree::*;

fn set() -> Command {
    assign(0, num(1))
}

/// The state that a run of this routine starts in, a Cond's, with both stacks so high.
fn at_a_choice(routine: &Routine, values: usize, control: usize) -> State<'_> {
    raised(State::start(routine, &[0]), values, control)
}

/// From 511 entries the Cond's step comes to 512. From 512 it would come to 513 and is
/// withheld, with none of its steps made.
#[test]
fn control_at_the_choices_own_step() {
    for truth in [true, false] {
        let inner = || cond(boo(truth), set(), set());
        passes(&tower(100, 510, inner()));
        assert_eq!(most(100, 510, inner()).control, 511);
        passes(&tower(100, 511, inner()));
        assert_eq!(most(100, 511, inner()).control, 512);
        assert_eq!(stops(&tower(100, 512, inner()), 36, "Cond").control, 512);
    }
    let routine = tower(100, 512, cond(boo(true), set(), set())).routine();
    let routine = read(&encode(&routine)).unwrap();
    let mut execution = Execution::start(&routine, &[0], MOST_BUDGET);
    let mut first_met = None;
    execution.finish(|at| {
        if top(at.state()) == "Cond" {
            first_met = first_met.or(Some(at.steps()));
        }
    });
    assert_eq!(first_met, Some(execution.steps()));
    // It is judged on the state that the step would leave.
    assert_eq!(after(execution.state()).control, 513);
}

/// The Cond is one entry of V below the operands of its test: from 510 entries a leaf
/// comes to 512, and a second operand would come to 513.
#[test]
fn values_of_a_choices_test() {
    passes(&tower(510, 400, cond(boo(true), set(), set())));
    assert_eq!(most(510, 400, cond(boo(true), repeat(boo(false), set()), set())).values, 512);
    let two = || cond(lt(num(1), id(0)), set(), set());
    passes(&tower(508, 400, two()));
    assert_eq!(most(508, 400, two()).values, 511);
    assert_eq!(stops(&tower(510, 400, two()), 35, "Id").values, 512);
    let three = || cond(lt(num(1), sum(num(2), id(0))), set(), set());
    passes(&tower(508, 400, three()));
    assert_eq!(most(508, 400, three()).values, 512);
    assert_eq!(stops(&tower(510, 400, three()), 35, "Num").values, 512);
    let four = || cond(lt(num(1), sum(num(2), sum(num(3), id(0)))), set(), set());
    assert_eq!(stops(&tower(508, 400, four()), 35, "Id").values, 512);
    passes(&tower(506, 400, four()));
}

/// The Cond's own entry would be the 513th from 512 entries. No routine comes there: a
/// command starts with an even number on V, and with 512 only before a function's Blk.
/// So the state is made by hand. Where both stacks are full control is named.
#[test]
fn values_at_the_choices_own_step() {
    let routine = read(&image(1, cond(boo(true), set(), set()))).unwrap();
    let judged = |values, control| room(after(&at_a_choice(&routine, values, control)));
    assert_eq!(after(&at_a_choice(&routine, 511, 400)).values, 512);
    assert_eq!(judged(511, 400), None);
    assert_eq!(judged(512, 400), Some(refusal::VALUES));
    assert_eq!(judged(400, 512), Some(refusal::CONTROL));
    assert_eq!(judged(511, 511), None);
    assert_eq!(judged(512, 512), Some(refusal::CONTROL));
    let both = after(&at_a_choice(&routine, 512, 512));
    assert_eq!((both.values, both.control), (513, 513));
}

/// The mark leaves two entries less on V, and one on control for one: it is made where
/// both stacks are full.
#[test]
fn a_choices_mark_with_both_stacks_full() {
    let inner = || cond(boo(true), set(), set());
    passes(&tower(510, 511, inner()));
    let heights = most(510, 511, inner());
    assert_eq!((heights.values, heights.control), (512, 512));
    let routine = read(&image(1, inner())).unwrap();
    let mut state = at_a_choice(&routine, 510, 512);
    let Some(ControlEntry::Node(second::node::Node::Cond(node))) = state.control.pop() else {
        panic!("the root is a Cond");
    };
    state.control.push(ControlEntry::Mark(Mark::Cond));
    for truth in [true, false] {
        state.values.truncate(510);
        state.values.push(ValueEntry::Cond(node));
        state.values.push(ValueEntry::Value(Value::Truth(truth)));
        let left = after(&state);
        assert_eq!((left.values, left.control, room(left)), (510, 512, None));
    }
}

/// Conds one in the other, as many as there may be, are no higher than one of them: from
/// 509 entries an Eq's step comes to 512, from 508 entries of V its operands to 511.
#[test]
fn a_chain_is_no_higher_than_one_choice() {
    for count in [1, 2, 6, 12] {
        // Register 0 is 0, so every test is false.
        let inner = || else_if(count);
        assert_eq!(most(100, 509, inner()).control, 512);
        passes(&tower(100, 509, inner()));
        assert_eq!(stops(&tower(100, 510, inner()), 36, "Eq").control, 511);
        assert_eq!(stops(&tower(100, 511, inner()), 36, "Eq").control, 512);
        assert_eq!(stops(&tower(100, 512, inner()), 36, "Cond").control, 512);
        assert_eq!(most(508, 400, inner()).values, 511);
        passes(&tower(508, 400, inner()));
        assert_eq!(stops(&tower(510, 400, inner()), 35, "Num").values, 512);
    }
}

/// A command that a Cond takes is stopped where it is without the Cond, with the same
/// heights, from every start at which the Cond has room.
#[test]
fn the_taken_command_has_the_room_of_the_choice() {
    let function = bind_abs(1, &[(2, 0)], block(bind_ref(3, id(2)), assign(0, id(3))));
    let growing = [
        assign(0, sum(num(1), sum(num(2), num(3)))),
        cseq(set(), set()),
        repeat(lt(id(0), num(1)), set()),
        blk(dseq(bind(1, num(1)), bind(2, id(1))), assign(0, id(2))),
        blk(function, call(1, vec![num(7)])),
        call(HELPER, vec![]),
    ];
    let mut reasons = [0; 3];
    for command in growing {
        for values in [100, 508, 510] {
            for control in [400, 507, 509, 511] {
                let alone = end(&tower(values, control, command.clone()));
                let first = cond(boo(true), command.clone(), set());
                assert_eq!(end(&tower(values, control, first)), alone);
                let second = cond(boo(false), set(), command.clone());
                assert_eq!(end(&tower(values, control, second)), alone);
                let reason = alone.0.map_or(0, |(reason, _)| reason as usize - 34);
                reasons[reason] += 1;
            }
        }
    }
    assert!(reasons.iter().all(|count| *count > 10), "{reasons:?}");
}

/// Conds around the layers of a tower hold nothing: the inner command is stopped from
/// the same starts.
#[test]
fn choices_around_hold_nothing() {
    let around = |values, control, inner| {
        let mut tower = tower(values, control, inner);
        for (index, first) in [true, false].into_iter().cycle().take(40).enumerate() {
            tower.layers.insert(2 * index, Layer::Choice { first });
        }
        assert_eq!((tower.heights().values, tower.heights().control), (values, control));
        tower
    };
    passes(&around(100, 300, set()));
    passes(&around(300, 511, set()));
    assert_eq!(stops(&around(300, 512, set()), 36, "Assign").control, 512);
    passes(&around(510, 300, set()));
    let two = || assign(0, sum(num(1), num(1)));
    assert_eq!(stops(&around(510, 300, two()), 35, "Num").values, 512);
    passes(&around(508, 300, two()));
}

/// No step of a Cond is withheld for two reasons of room, and none at its mark, from any
/// start near the limits.
#[test]
fn one_reason_of_a_choice_at_a_time() {
    let nested = cond(boo(true), else_if(2), set());
    let choices = [cond(boo(true), set(), set()), else_if(3), nested];
    let met = one_reason_at_a_time(&choices, 500..=510, 506..=512, "mark of Cond");
    assert!(met.iter().all(|count| *count > 5), "{met:?}");
}
