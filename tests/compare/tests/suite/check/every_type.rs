//! Every rule of scope and types with every code: names of each of the eight
//! codes, a function's name and a name that has no binding, in each name form,
//! at each place that has a rule.

use crate::helpers::agreed_tree;
use second::build::*;
use second::engine::Answer;
use second::tree::*;

const OPERATORS: [Operator; 11] = {
    use Operator::*;
    [Sum, Sub, Mul, Div, Eq, Lt, Le, Gt, Ge, And, Or]
};

/// Names 10 to 17 have codes 0 to 7; 20 is a function of no Formals, 21 one of
/// a Formal of code 0; 60 has no binding.
const NAMED: [Name; 11] = [10, 11, 12, 13, 14, 15, 16, 17, 20, 21, 60];

fn with_every_code(command: Command) -> Command {
    let nothing = || block(bind(1, num(0)), assign(0, num(0)));
    let plain = dseq(bind(10, num(0)), bind(11, boo(true)));
    let cells = dseq(bind_ref(12, num(0)), bind_ref(13, boo(true)));
    let second = dseq(bind_ref(14, deref(12)), bind_ref(15, deref(13)));
    let third = dseq(bind_ref(16, deref(14)), bind_ref(17, deref(15)));
    let functions = dseq(bind_abs(20, &[], nothing()), bind_abs(21, &[(30, 0)], nothing()));
    [functions, third, second, cells, plain]
        .into_iter()
        .fold(command, |command, declaration| blk(declaration, command))
}

/// Every name in every name form, and the leaves that are no name.
fn leaves() -> Vec<Expression> {
    let forms = NAMED.iter().flat_map(|name| [id(*name), deref(*name), valref(*name)]);
    forms.chain([num(1), boo(false)]).collect()
}

/// Both give this command the same answer; whether it passes.
fn passes(command: Command) -> bool {
    agreed_tree(1, with_every_code(command)) == Answer::Command
}

/// How many of these pass.
fn count(commands: impl IntoIterator<Item = Command>) -> usize {
    commands.into_iter().filter(|command| passes(command.clone())).count()
}

/// A command that holds an expression whose code is not used.
fn using(expression: Expression) -> Command {
    blk(bind(1, expression), assign(0, num(0)))
}

/// Id of each code, DeRef of 2 to 7, ValRef of 4 to 7; Num and Boo.
const PASSING_LEAVES: usize = 8 + 6 + 4 + 2;

#[test]
fn of_each_leaf() {
    assert_eq!(count(leaves().into_iter().map(using)), PASSING_LEAVES);
}

#[test]
fn of_each_pair_under_each_operator() {
    // Code 0: Id of 0, 2, ValRef of 4, Num; code 1 likewise.
    let leaves = leaves();
    for operator in OPERATORS {
        let pairs = leaves.iter().flat_map(|left| leaves.iter().map(move |right| (left, right)));
        let commands =
            pairs.map(|(left, right)| using(binary(operator, left.clone(), right.clone())));
        let expected = if operator == Operator::Eq { 4 * 4 + 4 * 4 } else { 4 * 4 };
        assert_eq!(count(commands), expected, "{operator:?}");
    }
}

#[test]
fn of_not_of_a_test_and_of_a_ref() {
    assert_eq!(count(leaves().into_iter().map(|leaf| using(not(leaf)))), 4);
    let set = || assign(0, num(1));
    assert_eq!(count(leaves().into_iter().map(|leaf| repeat(leaf, set()))), 4);
    assert_eq!(count(leaves().into_iter().map(|leaf| cond(leaf, set(), set()))), 4);
    // Codes 6 and 7 come of DeRef 16 and DeRef 17 alone.
    let refs = leaves().into_iter().map(|leaf| blk(bind_ref(1, leaf), assign(0, num(0))));
    assert_eq!(count(refs), PASSING_LEAVES - 2);
}

#[test]
fn of_an_assign_to_each_name() {
    let leaves = leaves();
    for name in NAMED {
        let commands = || leaves.iter().map(|leaf| assign(name, leaf.clone()));
        let expected = if [12, 13].contains(&name) { 4 } else { 0 };
        assert_eq!(count(commands()), expected, "name {name}");
        // As either command of a Cond, which names nothing itself.
        let other = || assign(0, num(1));
        let first = commands().map(|command| cond(boo(false), command, other()));
        assert_eq!(count(first), expected, "name {name}");
        let second = commands().map(|command| cond(boo(true), other(), command));
        assert_eq!(count(second), expected, "name {name}");
    }
}

#[test]
fn of_a_call_of_each_name_with_each_count() {
    for name in NAMED {
        for actuals in 0..=8 {
            let expected = (name, actuals) == (20, 0) || (name, actuals) == (21, 1);
            assert_eq!(passes(call(name, vec![num(0); actuals])), expected, "{name} of {actuals}");
        }
    }
}

#[test]
fn of_an_actual_for_a_formal_of_each_code() {
    let mut passed = 0;
    for code in 0..8 {
        let body = || block(bind(1, num(0)), assign(0, num(0)));
        let commands = leaves()
            .into_iter()
            .map(|leaf| blk(bind_abs(22, &[(30, code)], body()), call(22, vec![leaf])));
        passed += count(commands);
    }
    // Each leaf that has a code passes for this code alone.
    assert_eq!(passed, PASSING_LEAVES);
}

/// The first of two actuals that is at fault decides nothing: a Call's codes are
/// judged together, at the Call; a fault inside an actual is judged there.
#[test]
fn of_two_actuals() {
    let body = || block(bind(1, num(0)), assign(0, id(30)));
    let leaves = leaves();
    let pairs = leaves.iter().flat_map(|first| leaves.iter().map(move |other| (first, other)));
    let commands = pairs.map(|(first, other)| {
        let function = bind_abs(22, &[(30, 0), (31, 1)], body());
        blk(function, call(22, vec![first.clone(), other.clone()]))
    });
    assert_eq!(count(commands), 4 * 4);
}

/// One actual of another code, at each place of each count.
#[test]
fn of_one_actual_of_many() {
    for count in 1..=8 {
        let formals: Vec<_> = (0..count as Name).map(|index| (30 + index, index % 2)).collect();
        let actual = |code| if code == 0 { num(0) } else { boo(true) };
        for wrong in 0..=count {
            let actuals = formals
                .iter()
                .enumerate()
                .map(|(index, (_, code))| actual(if index == wrong { 1 - code } else { *code }));
            let body = block(bind(1, num(0)), assign(0, num(0)));
            let command = blk(bind_abs(22, &formals, body), call(22, actuals.collect()));
            assert_eq!(passes(command), wrong == count, "{wrong} of {count}");
        }
    }
}

/// A name bound on both sides of a DSeq, and Formals of one name, at every two
/// places of eight.
#[test]
fn of_repeated_names() {
    for first in 0..8 {
        for other in 0..8 {
            let mut names: Vec<Name> = (30..38).collect();
            names[first] = names[other];
            let binds = names.iter().map(|name| bind(*name, num(0))).collect();
            assert_eq!(passes(blk(declarations(binds), assign(0, num(0)))), first == other);
            let formals: Vec<_> = names.iter().map(|name| (*name, 0)).collect();
            let body = block(bind(1, num(0)), assign(0, num(0)));
            let command = blk(bind_abs(22, &formals, body), call(22, vec![num(0); 8]));
            assert_eq!(passes(command), first == other);
        }
    }
}
