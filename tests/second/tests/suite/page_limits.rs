//! The page of the greatest tree: 2,000 nodes and depth 64 in one. Its image and its page are
//! stored in `tests/pages`, so that every maker of pages is held to the same bytes.

use crate::helpers::*;
use second::build::*;
use second::bytes::words;
use second::encode;
use second::engine::WORK_WORDS;
use second::generate::limits::with_nodes;
use second::kinds::TABLE;
use second::tree::*;
use std::path::Path;

fn stored(name: &str) -> Vec<u8> {
    let path = Path::new(env!("CARGO_MANIFEST_DIR")).join("../pages").join(name);
    std::fs::read(&path).unwrap_or_else(|error| panic!("{}: {error}", path.display()))
}

/// Every kind, operands of 1 to 10 digits, and depth 64 at the last node: CSeqs below one
/// another, each with a command of its own before the next.
fn greatest() -> Command {
    let last = assign(0, num(u32::MAX));
    blk(names(), (2..=62).rev().fold(last, |next, depth| cseq(before_the_next(depth), next)))
}

/// A cell that shows register 0, a truth cell, and a function.
fn names() -> Declaration {
    let body = block(
        bind(9, mul(id(6), num(429_496_729))),
        repeat(id(7), cseq(assign(8, sub(id(8), id(9))), assign(3, boo(false)))),
    );
    let function = bind_abs(4, &[(6, 0), (7, 1), (8, 2)], body);
    dseq(dseq(bind_ref(2, deref(0)), bind_ref(3, boo(true))), function)
}

/// The first command of the CSeq at this depth.
fn before_the_next(depth: u32) -> Command {
    match depth {
        3 => with_so_many_nodes(712),
        5 => call(4, vec![div(id(0), num(3)), id(3), deref(1)]),
        7 => cond(
            truth(),
            assign(1, sum(valref(2), num(42_949))),
            call(4, vec![num(5), boo(false), deref(0)]),
        ),
        44 => with_so_many_nodes(1_052),
        _ => assign(0, num(u32::MAX / 10_u32.pow(depth % 10))),
    }
}

/// Every comparison, and what joins truths.
fn truth() -> Expression {
    let below = or(lt(id(0), id(1)), binary(Operator::Le, id(0), num(7)));
    let above = eq(gt(id(0), num(99)), not(binary(Operator::Ge, id(1), num(100))));
    and(below, above)
}

fn with_so_many_nodes(nodes: usize) -> Command {
    match with_nodes(nodes).root {
        Root::Command(command) => command,
        other => panic!("no command: {other:?}"),
    }
}

#[test]
fn the_stored_image_is_this_tree() {
    let bytes = stored("greatest.image");
    assert_eq!(bytes.len(), 8 + 8 * 2_000);
    assert_eq!(words(&bytes), image(2, greatest()));
}

#[test]
fn the_stored_page_is_its_page() {
    let (page, lines) = (stored("greatest.page"), paged_tree(2, greatest()));
    let lines: Vec<&[u8]> = lines.as_bytes().chunks(31).collect();
    assert_eq!(page.len(), 31 * 2_000);
    for (node, line) in page.chunks(31).enumerate() {
        assert_eq!(line, lines[node], "node {node}");
    }
}

/// What makes it the greatest: every kind, every count of digits, and the last node at
/// depth 64.
#[test]
fn it_has_every_kind_and_every_count_of_digits() {
    let page = String::from_utf8(stored("greatest.page")).expect("a text");
    for row in TABLE {
        let name = format!("{:<6}", row.name);
        assert!(page.lines().any(|line| line[8..14] == name), "{name}");
    }
    let digits = |first: usize, last: usize, count: usize| {
        page.lines().any(|line| line[first - 1..last].trim_start().len() == count)
    };
    for (first, last) in [(1, 4), (6, 7), (16, 25), (27, 30)] {
        for count in 1..=last + 1 - first {
            assert!(digits(first, last, count), "{count} digits in columns {first} to {last}");
        }
    }
    assert_eq!(page.lines().last(), Some("1999 64 Num    4294967295 2000"));
}

/// One byte short, exact, and longer.
#[test]
fn pages_around_its_length() {
    let (image, page) = (image(2, greatest()), stored("greatest.page"));
    for length in [0, 31, 61_969, 61_999] {
        let before = vec![200; length];
        let lent = page_over(&image, &before, WORK_WORDS);
        assert!(lent == (page_refused(41, 0), before), "{length} bytes");
    }
    for more in [0, 1, 31, 9_000] {
        let expected = [&page[..], &vec![200; more]].concat();
        let lent = page_over(&image, &vec![200; 62_000 + more], WORK_WORDS);
        assert!(lent == (Ok(()), expected), "{more} bytes more");
    }
}

/// A node more, or a level more, is refused as the image is, and not for the page.
#[test]
fn greater_trees_have_no_page() {
    let deep = image(0, (0..64).fold(boo(true), |operand, _| not(operand)));
    for length in [0, 62_000, 70_000] {
        let before = vec![200; length];
        let lent = page_over(&encode(&with_nodes(2_001)), &before, WORK_WORDS);
        assert!(lent == (page_refused(2, 0), before.clone()), "{length} bytes");
        let lent = page_over(&deep, &before, WORK_WORDS);
        assert!(lent == (page_refused(6, 64), before), "{length} bytes");
    }
}
