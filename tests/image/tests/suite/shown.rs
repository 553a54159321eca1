//! Images as trees, sound and damaged.

use image::show::show;
use second::build::*;
use second::encode::{bytes_of, program_input};
use second::engine::{check, Answer, WORK_WORDS};
use second::generate::Family;
use second::program::print_answer;
use second::reader::read;
use second::refusal::{line, Refusal, LENGTH};

/// The last lines: the checker's answer, and what a refusal says.
fn last_lines(answer: Answer) -> String {
    let said = answer.refusal().map(|refusal| line(refusal.number) + "\n");
    print_answer(answer) + &said.unwrap_or_default()
}

/// An image whose shape holds is shown as the second interpreter shows it, between
/// the counts and the checker's answer. What the checker refuses is marked.
#[test]
fn shapes_that_hold() {
    let (mut passed, mut refused) = (0, 0);
    for (_, family) in Family::ALL {
        for seed in 0..100 {
            let image = family.case(seed).image;
            let Ok(routine) = read(&image) else { continue };
            let answer = check(&image, WORK_WORDS);
            let tree = second::show::show(&routine);
            let mut lines: Vec<String> = tree.lines().skip(1).map(str::to_string).collect();
            match answer.refusal() {
                None => passed += 1,
                Some(refusal) => {
                    lines[refusal.place as usize] += &format!(" <- {}", line(refusal.number));
                    refused += 1;
                }
            }
            let counts = format!("nodes {}, registers {}", image[0], image[1]);
            let expected = format!("{counts}\n{}\n{}", lines.join("\n"), last_lines(answer));
            assert_eq!(show(&bytes_of(&image)), expected);
        }
    }
    assert!(passed > 100 && refused > 100, "{passed} {refused}");
}

/// Each refusal of the checker, at its node.
#[test]
fn refused_by_the_checker() {
    let said = |root| show(&bytes_of(&image(1, root)));
    assert_eq!(
        said(cseq(assign(0, num(1)), assign(0, sum(num(1), boo(true))))),
        "nodes 7, registers 1
   0 CSeq
   1   Assign 0
   2     Num 1
   3   Assign 0
   4     Sum <- 11 type: the node takes another type
   5       Num 1
   6       Boo 1
refused 11 at 4
11 type: the node takes another type
"
    );
    let ends = |root, mark: &str| {
        let shown = said(root);
        assert!(shown.contains(mark), "{shown}");
        assert_eq!(shown.matches(" <- ").count(), 1);
        let line = mark.split_once(" <- ").unwrap().1;
        assert!(shown.ends_with(&format!("\n{line}")), "{shown}");
    };
    ends(assign(0, id(5)), "   1   Id 5 <- 10 unbound: the name has no binding\n");
    // The second declaration of a DSeq sees the first, and not the other way round.
    ends(
        blk(dseq(bind(2, id(1)), bind(1, num(1))), assign(0, num(1))),
        "   3       Id 1 <- 10 unbound: the name has no binding\n",
    );
    assert!(
        said(blk(dseq(bind(1, num(1)), bind(2, id(1))), assign(0, id(2)))).ends_with("\ncommand\n")
    );
    ends(
        blk(dseq(bind(1, num(1)), bind(1, id(1))), assign(0, num(1))),
        "   1   DSeq <- 12 repeated: the name is declared twice\n",
    );
    ends(
        blk(bind(1, num(1)), assign(1, num(1))),
        "   3   Assign 1 <- 13 not assignable: the name cannot be set\n",
    );
    // Both commands of a Cond are judged, whichever would be taken, and then its test.
    ends(
        cond(boo(false), assign(0, id(5)), assign(0, num(1))),
        "   3     Id 5 <- 10 unbound: the name has no binding\n",
    );
    ends(
        cond(num(1), assign(0, num(1)), assign(0, id(5))),
        "   5     Id 5 <- 10 unbound: the name has no binding\n",
    );
    ends(
        cond(num(1), assign(0, num(1)), assign(0, num(2))),
        "   0 Cond <- 11 type: the node takes another type\n",
    );
    ends(
        call(0, vec![]),
        "   0 Call 0 of 0 actuals <- 14 call: no function of this name with so many Formals\n",
    );
}

#[test]
fn starting_values_are_shown() {
    let input = program_input(&image(2, sum(id(0), id(1))), &[-7, 8]);
    let expected = "nodes 3, registers 2
register 0 starts at -7
register 1 starts at 8
   0 Sum
   1   Id 0
   2   Id 1
code 0
";
    assert_eq!(show(&input), expected);
}

/// An image with no node, and what is refused near it: no node is looked for.
#[test]
fn no_routine() {
    let said = |words: &[u32]| show(&bytes_of(words));
    assert_eq!(said(&[0, 0]), "nodes 0, registers 0\n   - no routine\ncommand\n");
    assert_eq!(
        show(&program_input(&[0, 2], &[7, -8])),
        "nodes 0, registers 2
register 0 starts at 7
register 1 starts at -8
   - no routine
command
"
    );
    assert_eq!(
        said(&[0, 0, 15, 2, 0, 1]),
        "nodes 0, registers 0 <- 1 length: these take 8 bytes, and there are 24
   - no routine
refused 1 at 0
1 length: the length does not fit the counts
"
    );
    assert_eq!(
        said(&[0, 3, 1]),
        "nodes 0, registers 3 <- 1 length: \
         these take 8 bytes, or 32 with starting values, and there are 12
   - no routine
refused 1 at 0
1 length: the length does not fit the counts
"
    );
    assert_eq!(
        said(&[0, 17]),
        "nodes 0, registers 17 <- 2 counts: nodes are 0 to 2000, registers 0 to 16
   - no routine
refused 2 at 0
2 counts: n is above 2,000, or r is above 16
"
    );
    assert_eq!(
        show(&[0; 7]),
        "7 bytes <- 1 length: no image has fewer than 8
refused 1 at 0
1 length: the length does not fit the counts
"
    );
    // A node that is counted is missing.
    assert!(said(&[1, 0]).contains("   - missing <- 5 tree: "));
}

/// Each refusal of the shape, at its node.
#[test]
fn damaged_images() {
    let said = |words: &[u32]| show(&bytes_of(words));
    assert_eq!(
        show(&[1, 2, 3]),
        "3 bytes <- 1 length: no image has fewer than 8
refused 1 at 0
1 length: the length does not fit the counts
"
    );
    assert_eq!(
        said(&[3, 0, 4, 99, 1, 0, 5, 1]),
        "nodes 3, registers 0
   0 Sum
   1   kind 99 operand 5 <- 3 kind: no such kind
   2   Num 1
refused 3 at 1
3 kind: no such kind of node
"
    );
    assert_eq!(
        said(&[2, 0, 15, 2, 1, 7]),
        "nodes 2, registers 0
   0 Not <- 4 operand: the operand is 1
   1   Boo 7 <- 4 operand: the operand is 7
refused 4 at 0
4 operand: the kind does not take this operand
"
    );
    assert_eq!(
        said(&[3, 1, 4, 20, 1, 0, 0, 1]),
        "nodes 3, registers 1
   0 Sum
   1   Assign 0 <- 5 tree: an expression must stand here
   2     Num 1
   -   missing <- 5 tree: an expression must stand here
refused 5 at 1
5 tree: a node of another sort, missing or left over
"
    );
    assert_eq!(
        said(&[3, 0, 1, 15, 2, 5, 0, 1]),
        "nodes 3, registers 0
   0 Num 5
left over <- 5 tree: the tree has ended
   1 Not
   2   Boo 1
refused 5 at 1
5 tree: a node of another sort, missing or left over
"
    );
    assert_eq!(
        said(&[2, 0, 15, 2, 0]),
        "nodes 2, registers 0 <- 1 length: these take 24 bytes, and there are 20
   0 Not
   1   Boo ? <- 1 length: its operand is missing
refused 1 at 0
1 length: the length does not fit the counts
"
    );
    assert_eq!(
        said(&[0, 17, 15, 2, 0, 1]),
        "nodes 0, registers 17 <- 2 counts: nodes are 0 to 2000, registers 0 to 16
   0 Not
   1   Boo 1
refused 2 at 0
2 counts: n is above 2,000, or r is above 16
"
    );
    assert_eq!(
        said(&[4, 1, 25, 2, 20, 1, 1, 1, 0, 7]),
        "nodes 4, registers 1
   0 Cond <- 4 operand: the operand is 1
   1   Boo 1
   2   Assign 0
   3     Num 7
   -   missing <- 5 tree: a command must stand here
refused 4 at 0
4 operand: the kind does not take this operand
"
    );
    assert!(said(&[1, 2, 3, 0, 0]).starts_with(
        "nodes 1, registers 2 <- 1 length: \
         these take 16 bytes, or 32 with starting values, and there are 20\n"
    ));
    let deep = (0..64).fold(boo(true), |operand, _| not(operand));
    let shown = said(&image(0, deep));
    assert!(shown.contains("  64 "), "{shown}");
    assert!(shown.contains("Boo 1 <- 6 depth: depth 65\nrefused 6 at 64\n"), "{shown}");
    assert!(shown.ends_with("\n6 depth: the node is deeper than 64\n"), "{shown}");
}

/// Bytes with far more nodes than any image has, each below the one before: what is
/// behind the first 2,000 is only counted.
#[test]
fn no_more_nodes_than_any_image_has() {
    let mut words = vec![15; 2 + 2 * 100_000];
    words[0] = 100_000;
    words[1] = 0;
    let shown = show(&bytes_of(&words));
    let end = "further nodes, not shown: 98000\nrefused 2 at 0\n\
               2 counts: n is above 2,000, or r is above 16\n";
    assert!(shown.ends_with(end));
    assert_eq!(shown.lines().count(), 1 + 2_000 + 3);
    assert!(!shown.contains("missing"));
}

/// Whatever the bytes are, something is shown, and the last lines are the answer.
#[test]
fn any_bytes() {
    for (_, family) in Family::ALL {
        for seed in 0..300 {
            let image = family.case(seed).image;
            let mut bytes = bytes_of(&image);
            let shown = show(&bytes);
            let answer = check(&image, WORK_WORDS);
            // An image with words too many may be one with starting values.
            if answer.refusal() != Some(Refusal::whole(LENGTH)) {
                assert!(shown.ends_with(&last_lines(answer)), "{shown}");
            }
            bytes.truncate(seed as usize % (bytes.len() + 1));
            assert!(show(&bytes).lines().count() >= 1);
        }
    }
}
