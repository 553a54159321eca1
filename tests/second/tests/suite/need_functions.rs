//! The needs of functions and calls: actuals last to first, what a call saves, functions
//! that are never called or hidden, and functions that call functions.

use crate::helpers::*;
use second::build::*;
use second::needs::{Figures, Needs};
use second::tree::*;

fn set() -> Command {
    assign(0, num(1))
}

/// A body whose Blk binds name 63 and runs this: 6 steps more than the command.
fn body(command: Command) -> Blk {
    block(bind(63, num(0)), command)
}

/// A function with no Formals.
fn function(name: Name, command: Command) -> Declaration {
    bind_abs(name, &[], body(command))
}

/// Functions declared each in the Blk of the one before it, around a command: 6 steps more
/// for each, an entry of control, two of V and a binding.
fn within(functions: Vec<Declaration>, command: Command) -> Command {
    functions.into_iter().rev().fold(command, |command, function| blk(function, command))
}

fn once(name: Name) -> Command {
    call(name, vec![])
}

/// From a Call's mark on the saved E and L are on V, the Formals are bound and the mark
/// behind the Blk is on control, until the call is left.
#[test]
fn one_call() {
    // On control, over the outer Blk's mark and the call's: the Blk's four and the Bind's one
    // more. On V, over two of the outer Blk, of the call and of the Blk: name and value.
    for count in 0..=8 {
        let formals: Vec<(Name, Code)> = (0..count as Name).map(|name| (2 + name, 0)).collect();
        let root = blk(bind_abs(1, &formals, body(set())), call(1, vec![num(7); count]));
        // Many actuals are more than that.
        let (control, values) = ((count + 2).max(7), (count + 2).max(8));
        let steps = 6 + 3 + 9 + count as u64;
        assert_eq!(needed_tree(1, root), given(control, values, 1, 3 + count, steps), "{count}");
    }
}

/// Formals are bound until their call is left: what its function declares comes on top of
/// them, and what is declared behind it does not.
#[test]
fn formals_until_the_call_is_left() {
    let formals: Vec<(Name, Code)> = (2..10).map(|name| (name, 0)).collect();
    let plain =
        |count: Name| declarations((20..20 + count).map(|name| bind(name, num(1))).collect());
    let bindings = |inner: Command, behind: Command| {
        let calls = cseq(call(1, vec![num(7); 8]), behind);
        match needed_tree(1, blk(bind_abs(1, &formals, body(inner)), calls)) {
            Needs::Figures(Figures { room, .. }) => room.bindings,
            other => panic!("{other:?}"),
        }
    };
    // The register, the function's name, eight Formals and name 63.
    assert_eq!(bindings(set(), set()), 11);
    assert_eq!(bindings(blk(plain(5), set()), set()), 16);
    assert_eq!(bindings(set(), blk(plain(5), set())), 11);
    assert_eq!(bindings(set(), blk(plain(20), set())), 22);
    assert_eq!(bindings(set(), blk(plain(5), call(1, vec![num(7); 8]))), 16);
}

/// Actuals run last to first, each with the later ones' values on V and the earlier ones on
/// control.
#[test]
fn actuals_in_their_order() {
    let high = || (0..5).fold(num(1), |inner, _| sum(inner, num(1)));
    let wide = || (0..5).fold(num(1), |inner, _| sum(num(1), inner));
    let called = |actuals: Vec<Expression>| {
        let formals: Vec<(Name, Code)> =
            (0..actuals.len() as Name).map(|name| (2 + name, 0)).collect();
        needed_tree(1, blk(bind_abs(1, &formals, body(set())), call(1, actuals)))
    };
    let one = || num(1);
    // Five Sums to the left are 11 on control and 2 on V, to the right 7 and 6. Under an
    // actual are the Blk's mark and the call's, and on V the Blk's saved two.
    let steps = 6 + 3 + 9 + 3 + 15;
    assert_eq!(called(vec![high(), one(), one()]), given(13, 8, 1, 6, steps));
    assert_eq!(called(vec![one(), high(), one()]), given(14, 8, 1, 6, steps));
    assert_eq!(called(vec![one(), one(), high()]), given(15, 8, 1, 6, steps));
    assert_eq!(called(vec![wide(), one(), one()]), given(9, 10, 1, 6, steps));
    assert_eq!(called(vec![one(), wide(), one()]), given(10, 9, 1, 6, steps));
    assert_eq!(called(vec![one(), one(), wide()]), given(11, 8, 1, 6, steps));
    // Each has its own say.
    assert_eq!(called(vec![wide(), one(), high()]), given(15, 10, 1, 6, steps + 15));
    assert_eq!(called(vec![high(), one(), wide()]), given(13, 8, 1, 6, steps + 15));
}

/// A function that is never called adds its Bind alone; a Loop in it makes the steps open.
#[test]
fn functions_never_called() {
    let large = || {
        let many = (1..9).map(|name| bind_ref(name, num(1))).collect();
        blk(declarations(many), assign(0, (0..30).fold(num(1), |inner, _| sum(num(1), inner))))
    };
    let idle = |command| blk(function(1, command), set());
    // As a Bind of a number.
    assert_eq!(needed_tree(1, blk(bind(1, num(1)), set())), given(5, 4, 1, 2, 9));
    assert_eq!(needed_tree(1, idle(set())), given(5, 4, 1, 2, 9));
    assert_eq!(needed_tree(1, idle(large())), given(5, 4, 1, 2, 9));
    assert_eq!(needed_tree(1, idle(repeat(boo(true), large()))), open(5, 4, 1, 2));
    // In a function of a function, of which one is called or none.
    let inner = || function(2, cond(boo(true), large(), repeat(boo(true), set())));
    assert_eq!(needed_tree(1, idle(blk(inner(), set()))), open(5, 4, 1, 2));
    let called = blk(function(1, blk(inner(), set())), once(1));
    // The call's Blk, and in it a Blk as above, over its mark and its saved two.
    assert_eq!(needed_tree(1, called), open(3 + 5, 2 + 2 + 2 + 4, 1, 4));
    // In the second of two declarations, and as the only Loop of a sequence.
    let two = blk(dseq(function(1, set()), function(2, repeat(boo(false), set()))), once(1));
    assert_eq!(needed_tree(1, two), open(8, 8, 1, 4));
    assert_eq!(needed_tree(1, cseq(idle(repeat(boo(true), set())), set())), open(6, 4, 1, 2));
}

/// What a call needs is there wherever it stands: in either command of a Cond, in a Loop, in
/// a block, after another call.
#[test]
fn calls_stand_everywhere() {
    // The call alone from its Blk on: 6 on control, 6 on V, a binding and 12 steps.
    let run = |command| needed_tree(1, blk(function(1, set()), command));
    assert_eq!(run(once(1)), given(7, 8, 1, 3, 6 + 12));
    assert_eq!(run(cseq(once(1), set())), given(8, 8, 1, 3, 6 + 1 + 12 + 3));
    assert_eq!(run(cseq(set(), once(1))), given(7, 8, 1, 3, 6 + 1 + 12 + 3));
    assert_eq!(run(cseq(once(1), once(1))), given(8, 8, 1, 3, 6 + 1 + 24));
    assert_eq!(run(cond(boo(true), once(1), set())), given(7, 8, 1, 3, 6 + 3 + 12));
    assert_eq!(run(cond(boo(true), set(), once(1))), given(7, 8, 1, 3, 6 + 3 + 12));
    assert_eq!(run(repeat(boo(false), once(1))), open(8, 8, 1, 3));
    assert_eq!(run(blk(bind_ref(2, num(1)), once(1))), given(8, 10, 2, 4, 6 + 8 + 12));
}

/// The cells of this command, with a function 1 around it that makes three.
fn cells_within(command: Command) -> usize {
    let three = (11..14).map(|name| bind_ref(name, num(1))).collect();
    let root = blk(function(1, blk(declarations(three), set())), command);
    match needed_tree(1, root) {
        Needs::Figures(Figures { room, .. }) => room.cells - 1,
        other => panic!("{other:?}"),
    }
}

/// A function 1 that makes none, around a command.
fn within_another(command: Command) -> Command {
    blk(function(1, set()), command)
}

/// An inner name hides an outer function in its block and nowhere else.
#[test]
fn hidden_functions() {
    assert_eq!(cells_within(once(1)), 3);
    assert_eq!(cells_within(within_another(once(1))), 0);
    assert_eq!(cells_within(cseq(within_another(once(1)), set())), 0);
    assert_eq!(cells_within(cseq(within_another(once(1)), once(1))), 3);
    // A plain name.
    let plain = || blk(bind(1, num(3)), assign(0, id(1)));
    assert_eq!(cells_within(plain()), 0);
    assert_eq!(cells_within(cseq(plain(), once(1))), 3);
    // Its own Blk sees the function around it, not itself.
    assert_eq!(cells_within(blk(function(1, once(1)), once(1))), 3);
}

/// A function keeps what its names meant where it was declared.
#[test]
fn functions_keep_their_names() {
    let calls_1 = || function(2, once(1));
    assert_eq!(cells_within(blk(calls_1(), within_another(once(2)))), 3);
    assert_eq!(cells_within(blk(calls_1(), blk(bind(1, num(3)), once(2)))), 3);
    assert_eq!(cells_within(within_another(blk(calls_1(), once(2)))), 0);
    // The second declaration of a DSeq sees the first, not the reverse.
    let another = || function(1, set());
    assert_eq!(cells_within(blk(dseq(calls_1(), another()), once(2))), 3);
    assert_eq!(cells_within(blk(dseq(another(), calls_1()), once(2))), 0);
    assert_eq!(cells_within(blk(dseq(another(), calls_1()), cseq(once(2), once(1)))), 0);
}

/// A Formal hides a function in its own function's Blk, not outside.
#[test]
fn formals_hide_functions() {
    let with_formal = |command| bind_abs(2, &[(1, 0)], body(command));
    let uses = || with_formal(assign(0, id(1)));
    let call_2 = || call(2, vec![num(7)]);
    assert_eq!(cells_within(blk(uses(), call_2())), 0);
    assert_eq!(cells_within(blk(uses(), cseq(call_2(), once(1)))), 3);
    assert_eq!(cells_within(blk(uses(), cseq(once(1), call_2()))), 3);
    // A function hides the Formal again.
    assert_eq!(cells_within(blk(with_formal(within_another(once(1))), call_2())), 0);
    let refused = blk(function(1, set()), blk(with_formal(once(1)), set()));
    assert_eq!(needed_tree(1, refused), needs_refused(14, 15));
}

/// Each function calls the one before it, and the first one sets: per function the entries of
/// its declaration's Blk, of a call and of its own Blk.
#[test]
fn functions_that_call_functions() {
    for count in 1..=58 {
        let calls = |name: Name| if name == 1 { set() } else { once(name - 1) };
        let all = (1..=count).map(|name| function(name, calls(name))).collect();
        let high = count as usize;
        let expected = given(3 * high + 4, 6 * high + 2, 1, 2 * high + 1, 15 * high as u64 + 3);
        assert_eq!(needed_tree(1, within(all, once(count))), expected, "{count} functions");
    }
}

/// Figures far above the limits: functions in two DSeqs of so many each, each with four Blks in
/// each other around the call of the one before it. The second DSeq's hide the first one's.
#[test]
fn figures_above_every_limit() {
    let tall = |many: Name, local: fn(Name, Expression) -> Declaration| {
        let function = |index: Name| {
            let command = if index == 0 { set() } else { once(1 + (index - 1) % many) };
            let inner = (0..3).fold(command, |inner, _| blk(local(63, num(0)), inner));
            bind_abs(1 + index % many, &[], block(local(63, num(0)), inner))
        };
        let half = |from: Name| declarations((from..from + many).map(function).collect());
        needed_tree(1, blk(half(0), blk(half(many), once(many))))
    };
    // Under the first function called are the marks of two Blks and of the call. Then a
    // function has five entries of control, ten of V and four bindings; the innermost Blk has
    // 4 and 2 more of them while its own declaration runs.
    let control = |many: usize| 3 + 5 * (2 * many - 1) + 3 + 5;
    let values = |many: usize| 6 + 10 * (2 * many - 1) + 6 + 4;
    let bindings = |many: usize| 1 + 2 * many + 8 * many;
    // Blks, DSeqs and Binds of the declarations; the call, and each function.
    let steps = |many: u64, each: u64| 2 * (3 + 3 * (many - 1) + 3 * many) + 3 + each * 2 * many;
    let plain = given(control(60), values(60), 1, bindings(60), steps(60, 27));
    assert_eq!(tall(60, bind), plain);
    // A Ref makes a cell in two steps more.
    let cells = given(control(45) + 1, values(45), 361, bindings(45), steps(45, 35));
    assert_eq!(tall(45, bind_ref), cells);
}
