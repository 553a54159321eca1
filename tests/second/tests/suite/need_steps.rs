//! The steps of the needs: up to 1,000,000 they are a figure, above they are 40, and with a
//! Loop in the tree they are open. Functions that call functions twice have steps without
//! end, of which a formula says how many.

use crate::helpers::*;
use second::build::*;
use second::engine::Outcome;
use second::generate::steps::of_steps;
use second::needs::{needs, Needs, Steps, MOST_STEPS};
use second::reader::read;
use second::tree::*;

fn set() -> Command {
    assign(0, num(1))
}

fn once(name: Name) -> Command {
    call(name, vec![])
}

/// A function whose Blk binds a name that no one uses: 6 steps more than its command.
fn function(name: Name, command: Command) -> Declaration {
    bind_abs(name, &[], block(bind(63, num(0)), command))
}

/// The function of this name calls the one before it twice; function 1 sets.
fn doubling(name: Name) -> Declaration {
    match name {
        1 => function(1, set()),
        _ => function(name, cseq(once(name - 1), once(name - 1))),
    }
}

/// The steps of a Call of the function of this name: a Call has 3 more than its function's Blk,
/// which is 9 for function 1 and twice the Call before it, and 7, for others.
fn steps_of_call(name: Name) -> u64 {
    (22 << (name - 1)) - 10
}

/// So many doubling functions, each declared in the Blk of the one before it, around a
/// command: 6 steps for each more than the command.
fn within_doubling(count: Name, command: Command) -> Command {
    (1..=count).rev().fold(command, |command, name| blk(doubling(name), command))
}

#[test]
fn the_steps_of_functions_that_call_twice() {
    for count in 1..=16 {
        let high = count as usize;
        let steps = 6 * u64::from(count) + steps_of_call(count);
        let expected = given(4 * high + 3, 6 * high + 2, 1, 2 * high + 1, steps);
        assert_eq!(needed_tree(1, within_doubling(count, once(count))), expected, "{count}");
    }
    for count in [17, 18, 24, 33, 40, 58] {
        let needs = needed_tree(1, within_doubling(count, once(count)));
        assert_eq!(needs, needs_refused(40, 0), "{count} functions");
    }
}

fn steps_of(needs: Needs) -> Steps {
    match needs {
        Needs::Figures(figures) => figures.steps,
        other => panic!("{other:?}"),
    }
}

#[test]
fn a_million_steps_are_given_and_one_more_is_40() {
    for steps in [500, 10_000, 123_456, MOST_STEPS - 1, MOST_STEPS] {
        assert_eq!(steps_of(needed_tree(1, of_steps(steps))), Steps::Most(steps));
    }
    for steps in [MOST_STEPS + 1, MOST_STEPS + 2, 2 * MOST_STEPS] {
        assert_eq!(needed_tree(1, of_steps(steps)), needs_refused(40, 0), "{steps}");
    }
    assert_eq!(MOST_STEPS, 1_000_000);
}

/// The run of a million steps ends, and so does no longer one.
#[test]
fn a_run_has_the_steps() {
    assert_eq!(outcome(of_steps(MOST_STEPS), &[0]), (Outcome::None, MOST_STEPS));
    assert_eq!(outcome(of_steps(MOST_STEPS + 1), &[0]), (refused(30, 0), MOST_STEPS));
}

/// Of a Cond's commands the longer one counts, whichever it is.
#[test]
fn a_million_steps_in_either_command() {
    for (steps, expected) in [(999_997, None), (999_998, Some(40))] {
        let short = || of_steps(400);
        let long = || of_steps(steps);
        for root in [cond(boo(true), short(), long()), cond(boo(true), long(), short())] {
            let needs = needed_tree(1, root);
            assert_eq!(needs.refusal().map(|refusal| refusal.number), expected);
            if let Needs::Figures(figures) = needs {
                assert_eq!(figures.steps, Steps::Most(MOST_STEPS));
            }
        }
    }
    // One after another: the longest way is over the million though each command is far
    // below, and though a run takes the short ones.
    let three = |steps| {
        let third = || cond(boo(true), set(), of_steps(steps));
        needed_tree(1, commands(vec![third(), third(), third()]))
    };
    assert_eq!(steps_of(three(333_329)), Steps::Most(2 + 3 * 333_332));
    assert_eq!(three(333_330), needs_refused(40, 0));
    let tail = |steps| {
        let choice = cond(boo(true), set(), of_steps(600_000));
        needed_tree(1, cseq(choice, of_steps(steps)))
    };
    assert_eq!(steps_of(tail(399_996)), Steps::Most(MOST_STEPS));
    assert_eq!(tail(399_997), needs_refused(40, 0));
}

/// With a Loop in the tree there is no 40, wherever it stands.
#[test]
fn a_loop_opens_the_steps() {
    let run = |command| needed_tree(1, command);
    let idle = |command| blk(function(20, repeat(boo(true), set())), command);
    assert_eq!(run(idle(of_steps(MOST_STEPS + 1))).refusal(), None);
    assert_eq!(run(idle(of_steps(2 * MOST_STEPS))).refusal(), None);
    let before = cseq(repeat(boo(false), set()), of_steps(MOST_STEPS + 1));
    assert_eq!(run(before).refusal(), None);
    let apart = cond(boo(true), repeat(boo(false), set()), of_steps(MOST_STEPS + 1));
    assert_eq!(run(apart).refusal(), None);
}

/// 120 doubling functions, in two DSeqs of 60, have more than 2^120 steps.
fn of_120_functions(innermost: Command, idle: Command) -> Vec<u32> {
    let function_at = |index: Name| {
        let before = || once(1 + (index - 1) % 60);
        let command = if index == 0 { innermost.clone() } else { cseq(before(), before()) };
        function(1 + index % 60, command)
    };
    let half = |from: Name| declarations((from..from + 60).map(function_at).collect());
    image(1, blk(function(62, idle), blk(half(0), blk(half(60), once(60)))))
}

/// More than 2^64 steps are 40; with a Loop the room is worked out all the same.
#[test]
fn steps_beyond_every_word() {
    needs_are(&of_120_functions(set(), set()), needs_refused(40, 0));
    let choice = || cond(boo(true), set(), set());
    needs_are(&of_120_functions(choice(), choice()), needs_refused(40, 0));
    // Under the first function called are the marks of three Blks and of the call; then each
    // has three entries of control, with the second Call, four of V and a binding; the last
    // one has 5 and 4.
    let room = open(4 + 3 * 119 + 5, 8 + 4 * 119 + 4, 1, 1 + 121 + 120);
    needs_are(&of_120_functions(set(), repeat(boo(true), set())), room);
    needs_are(&of_120_functions(repeat(boo(false), set()), set()), room);
}

/// Where the effort does not do, what was reached is told.
#[test]
fn too_little_effort() {
    let endless = read(&of_120_functions(set(), repeat(boo(true), set()))).unwrap();
    for effort in [1, 100, 10_000] {
        let Needs::AtLeast(reached) = needs(&endless, effort) else { panic!("{effort}") };
        assert_eq!((reached.steps, reached.room.cells), (Steps::Open, 1));
    }
    // Without a Loop the steps too.
    let routine = read(&image(1, of_steps(10_000))).unwrap();
    for effort in [1, 5_000, 10_000] {
        let Needs::AtLeast(reached) = needs(&routine, effort) else { panic!("{effort}") };
        assert_eq!(reached.steps, Steps::Most(effort - 1));
    }
    assert_eq!(needs(&routine, 10_001), needed_tree(1, of_steps(10_000)));
}
