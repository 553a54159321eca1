//! Ranges at the limits of steps and room: 40 counts both commands of every Cond, and 33 to 36
//! go by the room figures of the needs.

use crate::helpers::*;
use crate::towers::tower;
use second::both_ways::{both_ways, BothWays};
use second::build::*;
use second::encode;
use second::engine::WORK_WORDS;
use second::generate::steps::of_steps;
use second::generate::tower::Layer;
use second::needs::{Needs, Steps, MOST_STEPS};
use second::reader::read;
use second::state::Heights;
use second::tree::*;
use second::Refusal;

fn set() -> Command {
    assign(0, num(1))
}

fn once(name: Name) -> Command {
    call(name, vec![])
}

/// A function whose Blk binds a name that no one uses: 6 steps more than its command.
fn function(name: Name, command: Command) -> Declaration {
    bind_abs(name, &[], block(bind(63, num(0)), command))
}

/// The steps with both commands, and the room.
fn both(root: impl Into<Root>) -> BothWays {
    both_ways(&read(&image(1, root)).expect("a tree"), MOST_STEPS).expect("steps enough")
}

/// A Cond is 2, its test and both commands; all else is as the needs have it.
#[test]
fn both_commands_count() {
    let test = || eq(id(0), num(1));
    assert_eq!(both(set()).steps, 3);
    assert_eq!(both(cond(boo(true), set(), set())).steps, 2 + 1 + 3 + 3);
    assert_eq!(both(cond(test(), set(), cseq(set(), set()))).steps, 2 + 4 + 3 + 7);
    let inner = || cond(boo(false), set(), set());
    assert_eq!(both(cond(test(), inner(), inner())).steps, 2 + 4 + 9 + 9);
    // A function counts where it is called, in both commands too; uncalled its Bind alone.
    let with = |command| blk(function(9, cond(boo(true), set(), set())), command);
    let body = 9 + 6;
    assert_eq!(both(with(set())).steps, 6 + 3);
    assert_eq!(both(with(once(9))).steps, 6 + 3 + body);
    assert_eq!(both(with(cond(boo(true), once(9), once(9)))).steps, 6 + 3 + 2 * (3 + body));
    assert_eq!(both(absent()), BothWays { room: Heights::new(1, 1, 0, 0), steps: 0 });
}

/// Without Cond the steps and the room are the needs.
#[test]
fn without_a_choice_the_needs() {
    let names = dseq(bind_ref(1, num(1)), bind(2, id(1)));
    for root in [set(), blk(names, set()), blk(function(9, set()), cseq(once(9), once(9)))] {
        let BothWays { room, steps } = both(root.clone());
        let expected = given(room.control, room.values, room.cells, room.bindings, steps);
        assert_eq!(needed_tree(1, root), expected);
    }
}

const STARTS: [(i64, i64); 1] = [(5, 9)];

/// Of a million steps the ends are given, of one more they are not.
#[test]
fn a_million_steps() {
    assert_eq!(both(of_steps(10_000)).steps, 10_000);
    for steps in [MOST_STEPS - 1, MOST_STEPS] {
        assert_eq!(ends_of(of_steps(steps), &STARTS), Ok(vec![(1, 1)]), "{steps}");
    }
    for steps in [MOST_STEPS + 1, 2 * MOST_STEPS] {
        assert_eq!(ends_of(of_steps(steps), &STARTS), ends_refused(40, 0), "{steps}");
    }
}

/// The two commands of a Cond together, of which the needs count the longer one alone; also
/// where only one of them is carried.
#[test]
fn a_million_steps_of_two_commands() {
    for test in [boo(true), boo(false), lt(id(0), num(7))] {
        let of_test = if matches!(test.form, Form::Boo(_)) { 1 } else { 4 };
        for (more, passes) in [(0, true), (1, false)] {
            let (short, long) = (400_000, 600_000 - 2 - of_test + more);
            for [first, second] in [[short, long], [long, short]] {
                let root = cond(test.clone(), of_steps(first), of_steps(second));
                let expected = if passes { Ok(vec![(1, 1)]) } else { ends_refused(40, 0) };
                assert_eq!(ends_of(root.clone(), &STARTS), expected);
                let Needs::Figures(figures) = needed_tree(1, root) else { panic!("figures") };
                assert_eq!(figures.steps, Steps::Most(long + 2 + of_test));
            }
        }
    }
}

/// A Cond in a function that is called by functions that call twice: both its commands count
/// each time.
#[test]
fn choices_double_too() {
    let with = |count: Name, innermost: Command| {
        let doubling = |name: Name| match name {
            1 => function(1, innermost.clone()),
            _ => function(name, cseq(once(name - 1), once(name - 1))),
        };
        (1..=count).rev().fold(once(count), |command, name| blk(doubling(name), command))
    };
    // A Call of the first has 18 steps, and so the n-th has 28 × 2^(n − 1) − 10.
    let choice = || cond(boo(true), set(), set());
    assert_eq!(both(with(5, choice())).steps, 5 * 6 + 28 * 16 - 10);
    assert_eq!(ends_of(with(16, choice()), &STARTS), Ok(vec![(1, 1)]));
    assert_eq!(ends_of(with(17, choice()), &STARTS), ends_refused(40, 0));
    // A Call in both commands of a Cond doubles them as well, though a run takes one.
    let halves = |count: Name| {
        let doubling = |name: Name| match name {
            1 => function(1, set()),
            _ => function(name, cond(boo(true), once(name - 1), once(name - 1))),
        };
        (1..=count).rev().fold(once(count), |command, name| blk(doubling(name), command))
    };
    assert_eq!(ends_of(halves(15), &STARTS), Ok(vec![(1, 1)]));
    for count in [17, 30, 50] {
        assert_eq!(ends_of(halves(count), &STARTS), ends_refused(40, 0), "{count}");
    }
}

/// So many names in one block, in turn bound to new cells or to numbers.
fn names(from: Name, count: usize, cells: bool) -> Declaration {
    let local = |index| {
        let name = from + index as Name;
        if cells {
            bind_ref(name, num(0))
        } else {
            bind(name, num(0))
        }
    };
    declarations((0..count).map(local).collect())
}

/// Blocks of so many names in all, forty at most in each.
fn blocks(mut count: usize, cells: bool, inner: Command) -> Command {
    let mut command = inner;
    while count > 0 {
        let some = count.min(40);
        command = blk(names(5, some, cells), command);
        count -= some;
    }
    command
}

fn refusal_of(root: Command) -> Option<u32> {
    let answer = ends_of(root, &STARTS);
    answer.err().map(|refusal| {
        assert_eq!(refusal.place, 0);
        refusal.number
    })
}

/// One register is a cell and a binding.
#[test]
fn cells_and_bindings() {
    assert_eq!(refusal_of(blocks(255, true, set())), None);
    assert_eq!(refusal_of(blocks(256, true, set())), Some(33));
    assert_eq!(refusal_of(blocks(511, false, set())), None);
    assert_eq!(refusal_of(blocks(512, false, set())), Some(34));
    // 33 before 34, and both before 44.
    let both = blocks(300, false, blocks(256, true, assign(0, div(num(1), num(0)))));
    assert_eq!(refusal_of(both), Some(33));
    let unsafe_too = blocks(512, false, assign(0, div(num(1), num(0))));
    assert_eq!(refusal_of(unsafe_too), Some(34));
}

/// A command that is not carried counts as well: the figures are over both ways of each test.
#[test]
fn room_of_a_command_that_is_not_carried() {
    for (cells, count, number) in [(true, 256, 33), (false, 512, 34)] {
        let large = || blocks(count, cells, set());
        assert_eq!(refusal_of(cond(boo(true), set(), large())), Some(number));
        assert_eq!(refusal_of(cond(boo(false), large(), set())), Some(number));
        // The commands of one Cond do not add up.
        let half = || blocks(count / 2 + 10, cells, set());
        assert_eq!(refusal_of(cond(lt(id(0), num(7)), half(), half())), None);
        // A function that no one calls adds nothing.
        let idle = bind_abs(4, &[], block(bind(63, num(0)), blocks(count, cells, set())));
        assert_eq!(refusal_of(blk(idle, set())), None);
    }
}

/// Entries of either stack, by what runs on a tower: values before control where both pass.
#[test]
fn entries_of_both_stacks() {
    let pair = || assign(0, sum(num(1), num(1)));
    for (values, control, inner, expected) in [
        (510, 400, set(), None),
        (510, 400, pair(), Some(35)),
        (100, 511, set(), None),
        (100, 512, set(), Some(36)),
        (510, 511, set(), None),
        (510, 512, pair(), Some(35)),
        (510, 512, set(), Some(36)),
    ] {
        for layers in [0, 3] {
            let mut tower = tower(values, control, inner.clone());
            // A Cond holds nothing of either stack while its commands are carried.
            for place in 0..layers {
                tower.layers.insert(20 * place, Layer::Choice { first: place == 1 });
            }
            let image = encode(&tower.routine());
            let refusal = ends_with(&image, &STARTS, WORK_WORDS).err();
            assert_eq!(refusal, expected.map(Refusal::whole), "{values}, {control}");
        }
    }
}
