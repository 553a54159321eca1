//! Declarations that use the earlier ones of their DSeqs: values, cells, locations
//! and functions, in every shape, at every budget.

use crate::helpers::*;
use second::build::*;
use second::tree::{Blk, Command, Declaration, Name};

/// Declarations under DSeqs nested to the left, to the right, or balanced.
fn shapes(all: &[Declaration]) -> [Declaration; 3] {
    let left = all.iter().cloned().reduce(dseq).expect("a declaration");
    let right = all.iter().cloned().rev().reduce(|later, one| dseq(one, later)).expect("as many");
    [left, right, declarations(all.to_vec())]
}

/// A function's Blk with a cell of its own.
fn body(command: Command) -> Blk {
    block(bind_ref(50, num(1)), command)
}

/// Each name is bound to twice the one before it and one more: plain and as a cell.
#[test]
fn each_is_made_of_the_one_before_it() {
    for count in [2, 3, 4, 7, 16, 40] {
        let declare = |name: Name| {
            let value =
                if name == 4 { id(1) } else { sum(id(name - 1), sum(id(name - 1), num(1))) };
            if name.is_multiple_of(2) {
                bind(name, value)
            } else {
                bind_ref(name, value)
            }
        };
        let all: Vec<_> = (4..4 + count).map(declare).collect();
        let expected = (0..count - 1).fold(-3_i64, |value, _| 2 * value + 1);
        for declaration in shapes(&all) {
            let root = blk(declaration, assign(0, id(3 + count)));
            assert_eq!(registers_after(root, &[0, -3]), [expected, -3]);
        }
    }
}

/// Each name is bound to the sum of all before it.
#[test]
fn each_is_made_of_all_before_it() {
    let names: Vec<Name> = (10..20).collect();
    let declare = |name: &Name| {
        let before = names.iter().take_while(|earlier| *earlier < name);
        bind_ref(*name, before.fold(id(1), |total, earlier| sum(total, id(*earlier))))
    };
    let all: Vec<_> = names.iter().map(declare).collect();
    let values = (0..10).map(|power| 5 << power);
    for declaration in shapes(&all) {
        let root = blk(declaration, gather(&names));
        assert_eq!(registers_after(root, &[0, 5]), [gathered(values.clone()), 5]);
    }
}

/// Cells of every level in one DSeq; what is stored through one name is seen by all.
#[test]
fn locations_of_every_level() {
    let all = [
        bind(10, deref(1)),
        bind_ref(11, deref(10)),
        bind_ref(12, deref(11)),
        bind(13, valref(12)),
        bind_ref(14, valref(12)),
        bind(15, id(12)),
        bind_ref(16, valref(11)),
    ];
    let inner = commands(vec![
        assign(13, num(8)),
        assign(0, valref(14)),
        assign(2, valref(15)),
        assign(3, id(16)),
        assign(10, sum(id(10), num(1))),
    ]);
    for declaration in shapes(&all) {
        let root = blk(declaration, inner.clone());
        assert_eq!(registers_after(root, &[0, 5, 0, 0]), [8, 9, 8, 5]);
    }
}

/// Every name of the first hides what it meant outside, in the second alone: at
/// each place of eight registers.
#[test]
fn an_outer_name_is_hidden_from_there_on() {
    let starts: Vec<i64> = (0..8).map(|index| 100 + index).collect();
    for hidden in 1..8 {
        // Name 20 + i is bound to what name i means; in between i is bound anew.
        for before in 0..8 {
            let mut all: Vec<_> = (1..8).map(|name| bind(20 + name, id(name))).collect();
            all.insert((before as usize).min(7), bind(hidden, num(7)));
            let names: Vec<Name> = (21..28).collect();
            let meant = |name: Name| match name == hidden && before < name {
                true => 7,
                false => 100 + i64::from(name),
            };
            let expected = gathered((1..8).map(meant));
            for declaration in shapes(&all) {
                let read = commands(vec![assign(0, num(0)), gather(&names)]);
                let root = cseq(blk(declaration, read), assign(1, id(hidden)));
                let registers = registers_after(root, &starts);
                assert_eq!(registers[0], expected, "{hidden}, {before}");
                // Behind the block it is the register again.
                assert_eq!(registers[1], 100 + i64::from(hidden));
            }
        }
    }
}

/// Each function calls the one before it twice, all in one DSeq.
#[test]
fn functions_that_call_the_one_before_them() {
    let mut all = vec![bind_abs(10, &[(20, 0)], body(assign(0, sum(id(0), id(20)))))];
    for level in 1..7 {
        let down = || call(10 + level - 1, vec![id(20)]);
        all.push(bind_abs(10 + level, &[(20, 0)], body(cseq(down(), down()))));
    }
    for declaration in shapes(&all) {
        let root = blk(declaration, call(16, vec![num(3)]));
        assert_eq!(registers_after(root, &[0]), [3 * 64]);
    }
}

/// A function has in its closure the names before it, not those after it, nor the
/// caller's; its own DSeq sees its Formals and what was declared before it.
#[test]
fn a_function_has_the_names_before_it() {
    let add = |value| assign(0, sum(mul(id(0), num(10)), value));
    let own = dseq(bind(6, sum(id(5), id(20))), bind(7, sum(id(6), num(1))));
    let all = [
        bind(5, num(2)),
        bind_abs(10, &[(20, 0)], block(own, cseq(add(id(6)), add(id(7))))),
        bind_ref(6, num(9)),
        bind_abs(11, &[], body(cseq(add(id(5)), cseq(add(id(6)), call(10, vec![id(6)]))))),
        bind_abs(12, &[(5, 0)], body(cseq(call(11, vec![]), add(id(5))))),
    ];
    for declaration in shapes(&all) {
        let caller = blk(bind(5, num(0)), cseq(assign(6, num(3)), call(12, vec![num(8)])));
        // 5, the cell 6, its own 6 and 7 with the actual 3, the Formal 8.
        assert_eq!(registers_after(blk(declaration, caller), &[0]), [23_568]);
    }
}

/// The cells of both declarations are the block's: they are freed together, round
/// after round, and the environment of outside is back.
#[test]
fn nothing_is_kept_from_one_round_to_the_next() {
    let all = [
        bind_ref(5, id(1)),
        bind_ref(6, sum(id(5), num(10))),
        bind_ref(1, deref(6)),
        bind_abs(7, &[], body(assign(6, sum(id(6), valref(1))))),
    ];
    for declaration in shapes(&all) {
        let inside = commands(vec![call(7, vec![]), assign(0, sum(id(0), id(6)))]);
        let round = cseq(blk(declaration, inside), assign(1, sub(id(1), num(1))));
        let root = repeat(gt(id(1), num(0)), round);
        // Twice the count and ten in each round.
        let total = |rounds: i64| (1..=rounds).map(|count| 2 * (count + 10)).sum::<i64>();
        assert_eq!(registers_after(root.clone(), &[0, 2]), [total(2), 0]);
        assert_eq!(registers_after(root, &[0, 300]), [total(300), 0]);
    }
}

/// A fault at each of eight places of a row of declarations: it is met there, with
/// all steps before it made and the registers as they were.
#[test]
fn faults_in_later_declarations() {
    for place in 1..8 {
        let declare = |index: u32| {
            let value = if index == place { div(id(9 + index), num(0)) } else { id(9 + index) };
            bind_ref(10 + index, value)
        };
        let all: Vec<_> = [bind_ref(10, id(1))].into_iter().chain((1..8).map(declare)).collect();
        for declaration in shapes(&all) {
            let root = cseq(assign(0, num(5)), blk(declaration, assign(0, num(6))));
            let ran = agreed_tree_run(root, &[0, 3]);
            assert_eq!((ran.refused(), ran.registers), (31, vec![5, 3]));
        }
    }
}
