//! Blocks and what they declare: many names joined in every shape, names that
//! hide others, cells that are freed and made again, locations.

use crate::helpers::*;
use second::build::*;
use second::tree::{Command, Declaration, Name};

/// Declarations under DSeqs nested to the left, to the right, or balanced.
fn shapes(all: &[Declaration]) -> [Declaration; 3] {
    let left = all.iter().cloned().reduce(dseq).expect("a declaration");
    let right = all.iter().cloned().rev().reduce(|rest, one| dseq(one, rest)).expect("as many");
    [left, right, declarations(all.to_vec())]
}

/// Names from 4 on: plain ones, cells and names of register 1, in turn.
fn many(count: Name) -> (Vec<Name>, Vec<Declaration>, Vec<i64>) {
    let names: Vec<Name> = (4..4 + count).collect();
    let declare = |name: &Name| match name % 3 {
        0 => bind(*name, num(*name)),
        1 => bind_ref(*name, num(*name)),
        _ => bind(*name, deref(1)),
    };
    let value = |name: &Name| if name % 3 == 2 { -50 } else { i64::from(*name) };
    (names.clone(), names.iter().map(declare).collect(), names.iter().map(value).collect())
}

#[test]
fn many_names_joined_in_every_shape() {
    for count in [1, 2, 3, 7, 20, 32] {
        let (names, all, values) = many(count);
        for declaration in shapes(&all) {
            let root = blk(declaration, gather(&names));
            assert_eq!(registers_after(root, &[0, -50]), [gathered(values.clone()), -50]);
        }
    }
}

/// The same in a block that hides all of these names and in one that hides some,
/// and again when those are left.
#[test]
fn names_hidden_and_back() {
    let (names, all, values) = many(30);
    let hide =
        |names: &[Name]| declarations(names.iter().map(|name| bind(*name, num(1))).collect());
    let read = || gather(&names[..15]);
    let (half, other) = (&names[..8], &names[8..]);
    for hidden in [&names[..], half, other, &names[14..15]] {
        let reset = || assign(0, num(0));
        let inner = blk(hide(hidden), commands(vec![reset(), read(), assign(2, id(0))]));
        let root = blk(declarations(all.clone()), commands(vec![inner, reset(), read()]));
        let inside = names[..15].iter().zip(&values);
        let inside = inside.map(|(name, value)| if hidden.contains(name) { 1 } else { *value });
        let expected = [gathered(values[..15].to_vec()), -50, gathered(inside)];
        assert_eq!(registers_after(root, &[0, -50, 0]), expected);
    }
}

/// One name bound anew at each of many levels; each level reads its own before
/// and after the one inside it.
#[test]
fn one_name_at_every_level() {
    for cells in [false, true] {
        let add = || assign(0, sum(mul(id(0), num(2)), id(5)));
        let declare = |level: u32| match cells {
            true => bind_ref(5, num(level % 2)),
            false => bind(5, num(level % 2)),
        };
        let root = (0..18)
            .fold(add(), |inner, level| blk(declare(level), cseq(add(), cseq(inner, add()))));
        let way_in = (0..18).rev();
        let bits = way_in.clone().chain([0]).chain(0..18).map(|level| level % 2);
        let expected = bits.fold(0, |total, bit| 2 * total + i64::from(bit));
        assert_eq!(registers_after(root, &[0]), [expected]);
    }
}

/// A block in a loop makes its cells anew in each round: what was stored there in
/// the round before is gone.
#[test]
fn cells_are_made_anew_in_each_round() {
    let two = dseq(bind_ref(5, num(10)), bind_ref(6, id(1)));
    let body = commands(vec![
        assign(5, sum(id(5), id(6))),
        assign(0, sum(id(0), id(5))),
        assign(6, num(1_000)),
        assign(1, sub(id(1), num(1))),
    ]);
    let root = repeat(gt(id(1), num(0)), blk(two, body));
    // Each round adds 10 and the count.
    assert_eq!(registers_after(root, &[0, 9]), [9 * 10 + 45, 0]);
}

/// Blocks of other numbers of cells one after another: the later one's cells lie
/// where the earlier one's were, and the outer block's cell stays.
#[test]
fn cells_of_one_block_lie_where_anothers_were() {
    let with_cells = |count: u32, first: u32| {
        let names: Vec<Name> = (10..10 + count).collect();
        let declare = |name: &Name| bind_ref(*name, num(first + *name));
        blk(declarations(names.iter().map(declare).collect()), gather(&names))
    };
    for (first, second) in [(1, 5), (5, 1), (3, 3), (12, 2), (2, 12)] {
        let inner = commands(vec![
            with_cells(first, 0),
            assign(3, sum(id(3), num(1))),
            assign(0, num(0)),
            with_cells(second, 100),
            assign(1, id(3)),
        ]);
        let root = blk(bind_ref(3, num(40)), cseq(inner, assign(2, id(3))));
        let expected = gathered((0..second).map(|index| 110 + i64::from(index)));
        assert_eq!(registers_after(root, &[0; 3]), [expected, 41, 41]);
    }
}

/// A block frees its own cells, not those of the block around it nor the
/// registers, at every depth; the sum of all is read on the way out.
#[test]
fn each_level_keeps_its_cells_until_it_is_left() {
    let root = (0..12).fold(assign(0, num(0)), |inner: Command, level| {
        let (one, other) = (10 + level, 30 + level);
        let declare = dseq(bind_ref(one, num(level)), bind_ref(other, num(2 * level)));
        let read = commands(vec![
            assign(one, sum(id(one), id(other))),
            assign(0, sum(mul(id(0), num(2)), id(one))),
        ]);
        blk(declare, cseq(inner, read))
    });
    let expected = (0..12).fold(0, |total, level| 2 * total + 3 * level);
    assert_eq!(registers_after(root, &[77, 5]), [expected, 5]);
}

/// Cells of locations, three levels of them, of integers and of truths; ValRef
/// and Id go down them, and what is stored through a name is seen by all.
#[test]
fn locations_of_every_level() {
    let inner = commands(vec![
        assign(0, valref(11)), // the register's 5
        blk(bind(13, valref(12)), cseq(assign(13, num(8)), assign(2, id(10)))),
        blk(bind_ref(14, valref(12)), assign(3, valref(14))),
        blk(bind(15, id(12)), assign(4, valref(15))),
    ]);
    let root =
        blk(bind(10, deref(1)), blk(bind_ref(11, deref(10)), blk(bind_ref(12, deref(11)), inner)));
    assert_eq!(registers_after(root, &[0, 5, 0, 0, 0]), [5, 8, 8, 8, 8]);
    let truths = blk(
        bind_ref(10, boo(true)),
        blk(
            bind_ref(11, deref(10)),
            blk(
                bind_ref(12, deref(11)),
                repeat(
                    valref(11),
                    blk(
                        bind(13, valref(12)),
                        cseq(assign(0, sum(id(0), num(1))), assign(13, lt(id(0), num(4)))),
                    ),
                ),
            ),
        ),
    );
    assert_eq!(registers_after(truths, &[0]), [4]);
}

/// The cell of a location lies behind many cells that are freed and made again
/// while it is read.
#[test]
fn a_location_outlasts_the_blocks_inside() {
    let fresh = |value| blk(bind_ref(20, num(value)), assign(1, sum(valref(11), id(20))));
    let inner = in_turn((0..20).map(fresh).chain([assign(0, id(1))]).collect());
    let root = blk(bind_ref(10, num(100)), blk(bind_ref(11, deref(10)), inner));
    assert_eq!(registers_after(root, &[0, 0]), [119, 119]);
}
