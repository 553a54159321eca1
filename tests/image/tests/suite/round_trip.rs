//! Image to text to image, over generated trees.

use image::parse::parse;
use image::print::print;
use image::stored::split;
use second::build::*;
use second::encode::program_input;
use second::generate::Family;
use second::kinds::TABLE;
use second::reader::read;
use std::collections::HashSet;

#[test]
fn trees_go_to_text_and_back() {
    let mut kinds = HashSet::new();
    let (mut trees, mut absent) = (0, 0);
    for (name, family) in Family::ALL {
        let count = if name == "large" || name == "limits" { 60 } else { 400 };
        for seed in 0..count {
            let image = family.case(seed).image;
            let Ok(routine) = read(&image) else { continue };
            let text = print(&routine);
            let listing = parse(&text).unwrap_or_else(|fault| panic!("{fault}\n{text}"));
            assert_eq!(listing.image(), image, "{text}");
            kinds.extend(listing.nodes.iter().map(|node| node.kind));
            trees += 1;
            absent += u32::from(listing.nodes.is_empty());
        }
    }
    assert!(trees > 1_000 && absent > 100, "{trees} {absent}");
    assert_eq!(kinds.len(), TABLE.len(), "every kind is met");
}

/// `()` stands for no routine, however it is written.
#[test]
fn no_routine_goes_to_text_and_back() {
    for registers in 0..=16 {
        let words = image(registers, absent());
        assert_eq!(words, [0, registers]);
        let text = print(&read(&words).unwrap());
        assert_eq!(text, format!("registers {registers}\n()\n"));
        assert_eq!(parse(&text).unwrap().image(), words);
    }
    for text in ["registers 2()", "registers 2 ( ; nothing\n )", "\u{feff}registers 2\n()\n; end"] {
        let listing = parse(text).unwrap();
        assert_eq!((listing.image(), listing.nodes.len()), (vec![0, 2], 0));
    }
}

/// Each list begins where its node says, with that kind's name.
#[test]
fn nodes_stand_where_they_say() {
    for seed in 0..50 {
        let text = print(&read(&Family::Medium.case(seed).image).unwrap());
        let lines: Vec<&str> = text.lines().collect();
        for node in parse(&text).unwrap().nodes {
            let name = second::kinds::by_number(node.kind).unwrap().name;
            let rest = &lines[node.position.line - 1][node.position.column - 1..];
            assert!(rest.starts_with(&format!("({name}")), "{rest}");
        }
    }
}

#[test]
fn no_line_is_long() {
    for seed in 0..200 {
        let text = print(&read(&Family::Small.case(seed).image).unwrap());
        assert!(text.lines().all(|line| line.len() <= 80), "{text}");
    }
}

#[test]
fn comments_and_spaces_say_nothing() {
    let text = "; a comment (with this\n registers\t2 ; and ) that\n\n(Sum(Num 1)\r\n  ( Num\n2 ))";
    assert_eq!(parse(text).unwrap().image(), image(2, sum(num(1), num(2))));
}

/// A byte order mark before the text says nothing; it is none inside.
#[test]
fn a_byte_order_mark_says_nothing() {
    let listing = parse("\u{feff}registers 0 (Num 1)").unwrap();
    assert_eq!(listing.image(), image(0, num(1)));
    assert_eq!(listing.nodes[0].position.to_string(), "1:13");
    assert!(parse("registers 0 \u{feff}(Num 1)").is_err());
}

#[test]
fn each_form_is_read() {
    let text = "registers 1
        (Blk (DSeq (Bind 1 (Abs (Formal 2 0) (Formal 3 5) (Blk (Bind 4 (Ref (Boo true)))
                    (Loop (And (Id 4) (Boo false)) (Assign 4 (Not (Boo false)))))))
               (Bind 5 (DeRef 0)))
          (CSeq (Call 1 (Num 4294967295) (DeRef 5))
            (Cond (Boo true) (Assign 0 (ValRef 5)) (Assign 0 (Num 1)))))";
    let body =
        block(bind_ref(4, boo(true)), repeat(and(id(4), boo(false)), assign(4, not(boo(false)))));
    let root = blk(
        dseq(bind_abs(1, &[(2, 0), (3, 5)], body), bind(5, deref(0))),
        cseq(
            call(1, vec![num(u32::MAX), deref(5)]),
            cond(boo(true), assign(0, valref(5)), assign(0, num(1))),
        ),
    );
    assert_eq!(parse(text).unwrap().image(), image(1, root));
}

/// A Cond on one line where it fits, and else with its test and its commands each on a
/// line of its own.
#[test]
fn a_choice_goes_to_text_and_back() {
    let short = "registers 1\n(Cond (Boo false) (Assign 0 (Num 1)) (Assign 0 (Num 2)))\n";
    let root = cond(boo(false), assign(0, num(1)), assign(0, num(2)));
    assert_eq!(parse(short).unwrap().image(), image(1, root));
    let long = "registers 2
(Cond
  (Lt (Id 0) (Num 0))
  (Assign 1 (Sub (Num 0) (Num 1)))
  (Cond (Eq (Id 0) (Num 0)) (Assign 1 (Num 0)) (Assign 1 (Num 1))))
";
    let else_if = cond(eq(id(0), num(0)), assign(1, num(0)), assign(1, num(1)));
    let root = cond(lt(id(0), num(0)), assign(1, sub(num(0), num(1))), else_if);
    assert_eq!(parse(long).unwrap().image(), image(2, root));
    for text in [short, long] {
        assert_eq!(print(&read(&parse(text).unwrap().image()).unwrap()), text);
    }
}

#[test]
fn starting_values_are_split_off() {
    let image = image(2, id(1));
    let values = vec![-1, i64::MAX];
    assert_eq!(split(&program_input(&image, &values)), Ok((image.clone(), values)));
    assert_eq!(split(&program_input(&image, &[])), Ok((image.clone(), vec![])));
    assert_eq!(split(&program_input(&image, &[1])).unwrap_err().number, 1);
    assert_eq!(split(&[0; 7]).unwrap_err().number, 1);
    assert_eq!(split(&[255; 8]).unwrap_err().number, 2);
    // With no routine: 8 bytes, and 8 for each register or none of them.
    assert_eq!(split(&[0; 8]), Ok((vec![0, 0], vec![])));
    assert_eq!(split(&program_input(&[0, 2], &[])), Ok((vec![0, 2], vec![])));
    assert_eq!(split(&program_input(&[0, 2], &[5, -6])), Ok((vec![0, 2], vec![5, -6])));
    for bytes in [vec![0; 9], vec![0; 12], vec![0; 16], program_input(&[0, 2], &[5])] {
        assert_eq!(split(&bytes).unwrap_err().number, 1, "{bytes:?}");
    }
    assert_eq!(split(&program_input(&[0, 17], &[0; 17])).unwrap_err().number, 2);
}
