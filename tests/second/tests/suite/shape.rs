//! Refusals 1 to 6: each at its place, and in the paper's order.

use crate::helpers::*;
use second::build::*;
use second::engine::Answer;
use second::generate::limits::with_nodes;
use second::generate::random::Random;
use second::generate::well_typed::Temper;
use second::kinds::{by_number, Kind, TABLE};
use second::reader::read;
use second::{encode, Refusal};

/// An image with no registers, of nodes given as kind and operand.
fn nodes(all: &[(u32, u32)]) -> Vec<u32> {
    let mut words = vec![all.len() as u32, 0];
    words.extend(all.iter().map(|(kind, _)| kind));
    words.extend(all.iter().map(|(_, operand)| operand));
    words
}

fn shape(image: &[u32]) -> Option<(u32, u32)> {
    read(image).err().map(|Refusal { number, place }| (number, place))
}

const NUM: (u32, u32) = (1, 0);
const BOO: (u32, u32) = (2, 0);
const SUM: (u32, u32) = (4, 0);
const NOT: (u32, u32) = (15, 0);
const ASSIGN: (u32, u32) = (20, 0);
const LOOP: (u32, u32) = (21, 0);
const CSEQ: (u32, u32) = (22, 0);
const BLK: (u32, u32) = (23, 0);
const COND: (u32, u32) = (25, 0);
const BIND: (u32, u32) = (30, 0);
const DSEQ: (u32, u32) = (31, 0);
const REF: (u32, u32) = (40, 0);
const FORMAL: (u32, u32) = (42, 0);
const NO_KIND: (u32, u32) = (18, 0);

fn call(count: u32) -> (u32, u32) {
    (24, 64 * count)
}

fn abs(count: u32) -> (u32, u32) {
    (41, count)
}

#[test]
fn fewer_than_two_words_is_1_whatever_they_are() {
    assert_eq!(shape(&[]), Some((1, 0)));
    assert_eq!(shape(&[0]), Some((1, 0)));
    assert_eq!(shape(&[1]), Some((1, 0)));
    assert_eq!(shape(&[2_001]), Some((1, 0)));
}

#[test]
fn counts_out_of_range_are_2_before_the_length() {
    assert_eq!(shape(&[0, 17]), Some((2, 0)));
    assert_eq!(shape(&[0, 17, 1, 0]), Some((2, 0)));
    assert_eq!(shape(&[2_001, 0]), Some((2, 0)));
    assert_eq!(shape(&[u32::MAX, 0]), Some((2, 0)));
    assert_eq!(shape(&[1 << 31, 0]), Some((2, 0)));
    assert_eq!(shape(&[1, 17, 1, 0]), Some((2, 0)));
    assert_eq!(shape(&[1, 17]), Some((2, 0)));
    assert_eq!(shape(&[1, 16, 1, 0]), None);
    assert_eq!(shape(&[0, 0]), None);
    assert_eq!(shape(&[0, 16]), None);
}

#[test]
fn any_other_length_than_2_and_2n_is_1() {
    assert_eq!(shape(&[1, 0]), Some((1, 0)));
    assert_eq!(shape(&[1, 0, 1]), Some((1, 0)));
    assert_eq!(shape(&[1, 0, 1, 0, 0]), Some((1, 0)));
    assert_eq!(shape(&[1, 0, 1, 0]), None);
    assert_eq!(shape(&[0, 0, 1]), Some((1, 0)));
    assert_eq!(shape(&[0, 0, 1, 0]), Some((1, 0)));
    // Before anything of a node is looked at.
    assert_eq!(shape(&[1, 0, 18]), Some((1, 0)));
}

#[test]
fn n_2000_passes_and_2001_is_2() {
    let most = encode(&with_nodes(2_000));
    assert_eq!(most[0], 2_000);
    assert_eq!(checked(&most), Answer::Command);
    let (reply, _) = run_at(&most, &[0], 1_000_000);
    assert_eq!(reply.refusal(), None);
    let over = encode(&with_nodes(2_001));
    assert_eq!(over[0], 2_001);
    assert_eq!(over.len(), 2 + 2 * 2_001);
    assert_eq!(checked(&over), answer_refused(2, 0));
}

#[test]
fn depth_64_passes_and_65_is_6_at_the_node() {
    let nots = |levels: usize| (0..levels).fold(boo(true), |operand, _| not(operand));
    assert_eq!(checked_tree(0, nots(63)), Answer::Code(1));
    assert_eq!(checked_tree(0, nots(64)), answer_refused(6, 64));
    assert_eq!(checked_tree(0, nots(70)), answer_refused(6, 64));
}

/// Depth counts every node, Ref, Abs and Formal too.
#[test]
fn depth_counts_nodes_of_every_sort() {
    let under = |levels: usize, command| {
        (0..levels).fold(command, |command, _| cseq(command, assign(0, num(0))))
    };
    // A Formal under Blk, Bind, Abs: the Blk is at depth 62, the Formal at 65.
    let function =
        blk(bind_abs(1, &[(2, 0)], block(bind(3, num(0)), assign(0, num(0)))), assign(0, num(0)));
    assert_eq!(shape(&image(1, under(61, function.clone()))), Some((6, 61 + 3)));
    // One level less: the Formal passes, the Bind in the function's Blk is too deep.
    assert_eq!(shape(&image(1, under(60, function))), Some((6, 60 + 5)));
    // An Abs at depth 65 under Blk and Bind, and a Ref likewise.
    let cell = blk(bind_ref(1, num(0)), assign(0, num(0)));
    assert_eq!(shape(&image(1, under(62, cell.clone()))), Some((6, 62 + 2)));
    assert_eq!(shape(&image(1, under(61, cell.clone()))), Some((6, 61 + 3)));
    assert_eq!(shape(&image(1, under(60, cell))), None);
    let empty = blk(bind_abs(1, &[], block(bind(3, num(0)), assign(0, num(0)))), assign(0, num(0)));
    assert_eq!(shape(&image(1, under(62, empty))), Some((6, 62 + 2)));
}

#[test]
fn kinds_out_of_the_table_are_3() {
    for kind in [0, 18, 19, 26, 29, 32, 33, 39, 43, 44, 100, 1 << 16, u32::MAX] {
        assert_eq!(shape(&nodes(&[(kind, 0)])), Some((3, 0)), "kind {kind}");
        assert_eq!(shape(&nodes(&[SUM, NUM, (kind, 0)])), Some((3, 2)), "kind {kind}");
    }
}

#[test]
fn the_table_has_the_papers_kinds() {
    let expressions = (1..=17).collect::<Vec<u32>>();
    let others = [20, 21, 22, 23, 24, 25, 30, 31, 40, 41, 42];
    let listed: Vec<u32> = TABLE.iter().map(|row| row.number).collect();
    assert_eq!(listed, [expressions, others.to_vec()].concat());
}

#[test]
fn the_root_is_an_expression_or_a_command() {
    for root in [BIND, DSEQ, REF, abs(0), FORMAL] {
        assert_eq!(shape(&nodes(&[root])), Some((5, 0)));
    }
    assert_eq!(shape(&nodes(&[NUM])), None);
    assert_eq!(shape(&nodes(&[call(0)])), None);
}

/// Each child of each kind, with the kinds that may stand there.
#[test]
fn children_of_the_wrong_sort_are_5_at_the_child() {
    let expression: Vec<u32> = (1..=17).collect();
    let command: Vec<u32> = (20..=25).collect();
    let bound: Vec<u32> = (1..=17).chain([40, 41]).collect();
    let declaration = vec![30, 31];
    // What stands before the child, and what may stand at it.
    let slots = vec![
        (vec![SUM], &expression),
        (vec![SUM, NUM], &expression),
        (vec![NOT], &expression),
        (vec![ASSIGN], &expression),
        (vec![LOOP], &expression),
        (vec![COND], &expression),
        (vec![call(1)], &expression),
        (vec![call(2), NUM], &expression),
        (vec![BLK, BIND, REF], &expression),
        (vec![LOOP, BOO], &command),
        (vec![COND, BOO], &command),
        (vec![COND, BOO, ASSIGN, NUM], &command),
        (vec![CSEQ], &command),
        (vec![CSEQ, ASSIGN, NUM], &command),
        (vec![BLK, BIND, NUM], &command),
        (vec![BLK], &declaration),
        (vec![BLK, DSEQ], &declaration),
        (vec![BLK, DSEQ, BIND, NUM], &declaration),
        (vec![BLK, BIND], &bound),
    ];
    let blk_alone = vec![23];
    let formal_alone = vec![42];
    let function_slots = vec![
        (vec![BLK, BIND, abs(0)], &blk_alone),
        (vec![BLK, BIND, abs(1)], &formal_alone),
        (vec![BLK, BIND, abs(1), FORMAL], &blk_alone),
        (vec![BLK, BIND, abs(2), FORMAL], &formal_alone),
        (vec![BLK, BIND, abs(2), FORMAL, FORMAL], &blk_alone),
    ];
    for (before, allowed) in slots.into_iter().chain(function_slots) {
        let place = before.len() as u32;
        for row in &TABLE {
            let mut all = before.clone();
            all.push((row.number, 0));
            // With nothing behind the child: an allowed one is passed over, and
            // then either nodes are missing or the tree is whole.
            let expected = if allowed.contains(&row.number) {
                shape(&nodes(&all)).map(|_| (5, place + 1))
            } else {
                Some((5, place))
            };
            assert_eq!(shape(&nodes(&all)), expected, "{} after {before:?}", row.name);
        }
    }
}

#[test]
fn a_missing_node_has_place_n() {
    assert_eq!(shape(&nodes(&[SUM])), Some((5, 1)));
    assert_eq!(shape(&nodes(&[SUM, NUM])), Some((5, 2)));
    assert_eq!(shape(&nodes(&[SUM, SUM, NUM, NUM])), Some((5, 4)));
    assert_eq!(shape(&nodes(&[LOOP, BOO])), Some((5, 2)));
    assert_eq!(shape(&nodes(&[COND])), Some((5, 1)));
    assert_eq!(shape(&nodes(&[COND, BOO])), Some((5, 2)));
    assert_eq!(shape(&nodes(&[COND, BOO, ASSIGN, NUM])), Some((5, 4)));
    assert_eq!(shape(&nodes(&[call(3), NUM, NUM])), Some((5, 3)));
    assert_eq!(shape(&nodes(&[BLK, BIND, abs(2), FORMAL])), Some((5, 4)));
}

/// A node that is missing has no depth to judge.
#[test]
fn a_missing_node_is_5_even_below_the_greatest_depth() {
    assert_eq!(shape(&nodes(&[NOT; 64])), Some((5, 64)));
    assert_eq!(shape(&nodes(&[NOT; 65])), Some((6, 64)));
}

#[test]
fn the_first_node_left_over_is_5() {
    assert_eq!(shape(&nodes(&[NUM, NUM])), Some((5, 1)));
    assert_eq!(shape(&nodes(&[NUM, NUM, NUM])), Some((5, 1)));
    assert_eq!(shape(&nodes(&[SUM, NUM, NUM, NUM])), Some((5, 3)));
    assert_eq!(shape(&nodes(&[COND, BOO, call(0), call(0), call(0)])), Some((5, 4)));
    // Nothing of a node left over is judged.
    assert_eq!(shape(&nodes(&[NUM, NO_KIND])), Some((5, 1)));
    assert_eq!(shape(&nodes(&[NUM, (2, 7)])), Some((5, 1)));
    // Nodes left over come after every other check.
    assert_eq!(shape(&nodes(&[SUM, NUM, (2, 7), NUM])), Some((4, 2)));
}

#[test]
fn the_greatest_operand_of_each_kind_passes_and_one_more_is_4() {
    let greatest = |kind| match kind {
        Kind::Num => u32::MAX,
        Kind::Boo => 1,
        Kind::Id | Kind::DeRef | Kind::ValRef | Kind::Assign | Kind::Bind => 63,
        Kind::Call => 63 + 64 * 8,
        Kind::Abs => 8,
        Kind::Formal => 63 + 64 * 7,
        _ => 0,
    };
    let before = |kind| match kind {
        Kind::Bind | Kind::DSeq => vec![BLK],
        Kind::Ref | Kind::Abs => vec![BLK, BIND],
        Kind::Formal => vec![BLK, BIND, abs(8)],
        _ => vec![],
    };
    for row in &TABLE {
        let place = before(row.kind).len() as u32;
        let with = |operand| {
            let mut all = before(row.kind);
            all.push((row.number, operand));
            shape(&nodes(&all))
        };
        let most = greatest(row.kind);
        assert_ne!(with(most), Some((4, place)), "{}", row.name);
        if let Some(over) = most.checked_add(1) {
            assert_eq!(with(over), Some((4, place)), "{}", row.name);
            assert_eq!(with(u32::MAX), Some((4, place)), "{}", row.name);
        }
    }
}

#[test]
fn within_a_node_kind_comes_first_then_sort_operand_and_depth() {
    let deep = |last: (u32, u32)| {
        let mut all = vec![NOT; 64];
        all.push(last);
        shape(&nodes(&all))
    };
    // Kind before sort, operand and depth.
    assert_eq!(deep((18, 9)), Some((3, 64)));
    // Sort before operand and depth: an Assign where an expression stands.
    assert_eq!(deep((20, 64)), Some((5, 64)));
    // Operand before depth.
    assert_eq!(deep((2, 2)), Some((4, 64)));
    assert_eq!(deep((2, 1)), Some((6, 64)));
    // Sort before operand, where the depth is no matter.
    assert_eq!(shape(&nodes(&[SUM, (20, 64), NUM])), Some((5, 1)));
    assert_eq!(shape(&nodes(&[(30, 64)])), Some((5, 0)));
}

#[test]
fn all_of_a_nodes_checks_come_before_the_next_node() {
    // Operand of the first node before the kind of the second.
    assert_eq!(shape(&nodes(&[(4, 1), NO_KIND, NUM])), Some((4, 0)));
    // Operand of the first before the second is missing.
    assert_eq!(shape(&nodes(&[(4, 1)])), Some((4, 0)));
    // Depth of a node before the kind of its child.
    let mut all = vec![NOT; 65];
    all.push(NO_KIND);
    assert_eq!(shape(&nodes(&all)), Some((6, 64)));
    // The first child's subtree before the second child.
    assert_eq!(shape(&nodes(&[SUM, NOT, (2, 2), NO_KIND])), Some((4, 2)));
}

/// The shape is judged before scope and types, wherever the faults stand.
#[test]
fn shape_comes_before_scope_and_types() {
    // Sum of an unbound Id and a Boo with a wrong operand.
    assert_eq!(checked(&nodes(&[SUM, (3, 0), (2, 5)])), answer_refused(4, 2));
    assert_eq!(checked(&nodes(&[(3, 0), NUM])), answer_refused(5, 1));
}

#[test]
fn what_is_read_is_what_was_written() {
    let random = &mut Random::new(7);
    for _ in 0..300 {
        let routine = second::generate::well_typed_routine(random, 300, Temper::Wild);
        let words = encode(&routine);
        let read = read(&words).expect("a well-typed tree has the right shape");
        assert_eq!(encode(&read), words);
        for (place, (node, _)) in read.root.preorder().into_iter().enumerate() {
            assert_eq!(node.place(), place as u32);
            let row = by_number(words[2 + place]).unwrap();
            assert_eq!(node.kind(), row.kind);
        }
    }
}
