//! Faults of a text: what is said of each, and where.

use image::parse::parse;

/// The fault of a text, with its position.
fn fault(text: &str) -> String {
    match parse(text) {
        Ok(listing) => panic!("{text} is read as {listing:?}"),
        Err(fault) => fault.to_string(),
    }
}

#[test]
fn the_count_of_registers() {
    let begins = "the text begins with `registers R`, not with";
    assert_eq!(fault(""), format!("1:1: {begins} the end of the text"));
    assert_eq!(fault("(Num 1)"), format!("1:1: {begins} `(`"));
    assert_eq!(fault("; nothing\n"), format!("2:1: {begins} the end of the text"));
    let count = "the count of registers must stand here, 0 to 16, not";
    assert_eq!(fault("registers 17 (Num 1)"), format!("1:11: {count} `17`"));
    assert_eq!(fault("registers (Num 1)"), format!("1:11: {count} `(`"));
    assert_eq!(fault("registers -1 (Num 1)"), format!("1:11: {count} `-1`"));
}

#[test]
fn kinds_and_sorts() {
    let said = |tree: &str| fault(&format!("registers 1\n{tree}"));
    assert_eq!(said("(Add (Num 1) (Num 2))"), "2:2: `Add` is no kind of node");
    assert_eq!(said("(sum (Num 1) (Num 2))"), "2:2: `sum` is no kind of node; Sum is");
    assert_eq!(said("(Not ())"), "2:7: a kind of node must stand here, not `)`");
    assert_eq!(said("5"), "2:1: an expression or a command must stand here, not `5`");
    assert_eq!(
        said("(Bind 1 (Num 1))"),
        "2:1: an expression or a command must stand here, not Bind"
    );
    assert_eq!(said("(Not (Assign 0 (Num 1)))"), "2:6: an expression must stand here, not Assign");
    assert_eq!(said("(Loop (Boo true) (Num 1))"), "2:18: a command must stand here, not Num");
    assert_eq!(
        said("(Blk (Assign 0 (Num 1)) (Num 1))"),
        "2:6: a declaration must stand here, not Assign"
    );
    assert_eq!(
        said("(Blk (Bind 1 (Formal 1 0)) (Assign 0 (Num 1)))"),
        "2:14: an expression, Ref or Abs must stand here, not Formal"
    );
    assert_eq!(
        said("(Blk (Bind 1 (Abs (Num 1))) (Call 1))"),
        "2:19: a Blk must stand here, not Num"
    );
}

/// A slot with no routine is written `()`; a routine that is forgotten is a fault, and so
/// is `()` anywhere else.
#[test]
fn no_routine() {
    let said = |tree: &str| fault(&format!("registers 1\n{tree}"));
    let ends = "an expression or a command must stand here, not the end of the text";
    let hint = "; where there is no routine, write `()`";
    assert_eq!(said(""), format!("2:1: {ends}{hint}"));
    assert_eq!(said("; (Num 1)\n"), format!("3:1: {ends}{hint}"));
    assert_eq!(fault("registers 1"), format!("1:12: {ends}{hint}"));
    assert_eq!(said("("), "2:2: a kind of node must stand here, not the end of the text");
    assert_eq!(said(")"), "2:1: an expression or a command must stand here, not `)`");
    let behind = "the text must end behind `()`, and not go on with";
    assert_eq!(said("() ()"), format!("2:4: {behind} `(`"));
    assert_eq!(said("()\n(Num 1)"), format!("3:1: {behind} `(`"));
    assert_eq!(said("() 5"), format!("2:4: {behind} `5`"));
    assert_eq!(said("())"), "2:3: this `)` closes nothing");
    let kind = "a kind of node must stand here, not";
    assert_eq!(said("(()"), format!("2:2: {kind} `(`"));
    assert_eq!(said("(Assign 0 ())"), format!("2:12: {kind} `)`"));
    assert_eq!(said("(CSeq (Assign 0 (Num 1)) ())"), format!("2:27: {kind} `)`"));
    assert_eq!(said("(Blk () (Assign 0 (Num 1)))"), format!("2:7: {kind} `)`"));
    assert_eq!(said("(Call 1 ())"), format!("2:10: {kind} `)`"));
    assert_eq!(
        fault("registers 17 ()"),
        "1:11: the count of registers must stand here, 0 to 16, not `17`"
    );
}

#[test]
fn operands() {
    let said = |tree: &str| fault(&format!("registers 1\n{tree}"));
    assert_eq!(said("(Num)"), "2:5: a number must stand here, 0 to 4294967295, not `)`");
    assert_eq!(said("(Num +1)"), "2:6: a number must stand here, 0 to 4294967295, not `+1`");
    assert_eq!(
        said("(Num 4294967296)"),
        "2:6: a number must stand here, 0 to 4294967295, not `4294967296`"
    );
    let truth = "2:6: true or false must stand here, not";
    assert_eq!(said("(Boo 2)"), format!("{truth} `2`"));
    assert_eq!(said("(Boo 1)"), format!("{truth} `1`; 1 is written true"));
    assert_eq!(said("(Boo 0)"), format!("{truth} `0`; 0 is written false"));
    assert_eq!(said("(Boo (Num 1))"), format!("{truth} `(`"));
    assert_eq!(said("(Id 64)"), "2:5: a name must stand here, 0 to 63, not `64`");
    assert_eq!(said("(Id x)"), "2:5: a name must stand here, 0 to 63, not `x`");
    assert_eq!(said("(Assign (Num 1))"), "2:9: a name must stand here, 0 to 63, not `(`");
    assert_eq!(
        said("(Blk (Bind 1 (Abs (Formal 2 8)"),
        "2:29: a type code must stand here, 0 to 7, not `8`"
    );
}

/// A negative number is refused with the list that gives it, as far as there is one.
#[test]
fn negative_numbers() {
    let said = |word: &str| fault(&format!("registers 1\n(Num {word})"));
    let range =
        |word: &str| format!("2:6: a number must stand here, 0 to 4294967295, not `{word}`");
    for digits in ["1", "42", "4294967295"] {
        let word = format!("-{digits}");
        let list = format!("(Sub (Num 0) (Num {digits}))");
        let hint = format!("; a negative number is a difference: {list}");
        assert_eq!(said(&word), range(&word) + &hint);
        assert!(parse(&format!("registers 1\n{list}")).is_ok());
    }
    for word in ["-4294967296", "-", "--1", "-+1", "-x", "-99999999999999999999"] {
        assert_eq!(said(word), range(word));
    }
    assert_eq!(fault("registers 1 (Id -1)"), "1:17: a name must stand here, 0 to 63, not `-1`");
}

#[test]
fn children() {
    let said = |tree: &str| fault(&format!("registers 1\n{tree}"));
    assert_eq!(said("(Sum (Num 1))"), "2:13: an expression of the Sum at 2:1 is missing");
    assert_eq!(said("(Sum (Num 1) (Num 2) (Num 3))"), "2:22: the Sum at 2:1 has no further child");
    assert_eq!(said("(Num 1 (Num 2))"), "2:8: the Num at 2:1 has no further child");
    assert_eq!(said("(Num 1 2)"), "2:8: `)` must close the Num at 2:1, not `2`");
    assert_eq!(said("(Blk (Bind 1 (Abs)) (Call 1))"), "2:18: a Blk of the Abs at 2:14 is missing");
    let nine = "(Num 1) ".repeat(9);
    assert_eq!(said(&format!("(Call 1 {nine})")), "2:73: Call takes no more than 8 of these");
    let nine = "(Formal 1 0) ".repeat(9);
    assert_eq!(
        said(&format!("(Blk (Bind 1 (Abs {nine}")),
        "2:123: Abs takes no more than 8 of these"
    );
}

/// A Cond has a test and two commands; where one of these is missing the fault says what
/// the two are for.
#[test]
fn choices() {
    let said = |tree: &str| fault(&format!("registers 1\n{tree}"));
    let set = "(Assign 0 (Num 1))";
    let missing = "a command of the Cond at 2:1 is missing; \
                   the first of its two runs if the test is true, else the second";
    assert_eq!(said(&format!("(Cond (Boo true) {set})")), format!("2:36: {missing}"));
    assert_eq!(said("(Cond (Boo true))"), format!("2:17: {missing}"));
    assert_eq!(said("(Cond)"), "2:6: an expression of the Cond at 2:1 is missing");
    assert_eq!(
        said("(Cond (Boo true"),
        "2:16: `)` must close the Boo at 2:7, not the end of the text"
    );
    assert_eq!(
        said(&format!("(Cond (Boo true) {set} {set} {set})")),
        "2:56: the Cond at 2:1 has no further child"
    );
    assert_eq!(
        said(&format!("(Cond {set} {set} {set})")),
        "2:7: an expression must stand here, not Assign"
    );
    let command = "a command must stand here, not";
    assert_eq!(said("(Cond (Boo true) (Num 1)"), format!("2:18: {command} Num"));
    assert_eq!(
        said(&format!("(Cond (Boo true) {set} (Boo true))")),
        format!("2:37: {command} Boo")
    );
    assert_eq!(
        said(&format!("(Cond (Boo true) {set} (Bind 1 (Num 1)))")),
        format!("2:37: {command} Bind")
    );
    assert_eq!(
        said(&format!("(Cond 0 (Boo true) {set} {set})")),
        "2:7: an expression must stand here, not `0`"
    );
    let choice = format!("(Cond (Boo true) {set} {set})");
    assert_eq!(said(&format!("(Not {choice})")), "2:6: an expression must stand here, not Cond");
    assert_eq!(
        said(&format!("(Blk {choice} {set})")),
        "2:6: a declaration must stand here, not Cond"
    );
    assert_eq!(
        said(&format!("(Blk (Bind 1 (Abs {choice})) (Call 1))")),
        "2:19: a Blk must stand here, not Cond"
    );
    assert_eq!(said("(cond (Boo true))"), "2:2: `cond` is no kind of node; Cond is");
    assert_eq!(said("(If (Boo true))"), "2:2: `If` is no kind of node");
}

#[test]
fn parentheses() {
    let said = |tree: &str| fault(&format!("registers 1\n{tree}"));
    assert_eq!(
        said("(Not\n  (Boo true)\n"),
        "4:1: `)` must close the Not at 2:1, not the end of the text"
    );
    assert_eq!(said("(Num 1))"), "2:8: this `)` closes nothing");
    assert_eq!(said("(Num 1) (Num 2)"), "2:9: the tree has ended before `(`");
    assert_eq!(said("(Num 1) more"), "2:9: the tree has ended before `more`");
}

/// A column is a character, not a byte.
#[test]
fn columns_are_characters() {
    assert_eq!(fault("registers 0 (Ä (Π"), "1:14: `Ä` is no kind of node");
    assert_eq!(fault("registers 0 (Not ; Π\n é"), "2:2: an expression must stand here, not `é`");
    // A byte order mark has none.
    assert_eq!(fault("\u{feff}registers 0 (A"), "1:14: `A` is no kind of node");
}

#[test]
fn depth_and_nodes() {
    let nested = |depth: usize| {
        let opened = "(Not ".repeat(depth - 1);
        format!("registers 0\n{opened}(Boo true{}", ")".repeat(depth))
    };
    assert!(parse(&nested(64)).is_ok());
    assert_eq!(fault(&nested(65)), "2:321: depth 65: no tree is deeper than 64");
    assert!(fault(&nested(100_000)).contains("depth 65"));

    // Sums that share their leaves out evenly: 2 × leaves − 1 nodes.
    fn sums(leaves: usize) -> String {
        match leaves {
            1 => "(Num 1)".to_string(),
            _ => format!("(Sum\n{} {})", sums(leaves / 2), sums(leaves - leaves / 2)),
        }
    }
    assert_eq!(parse(&format!("registers 0 {}", sums(1_000))).unwrap().nodes.len(), 1_999);
    let said = fault(&format!("registers 0 {}", sums(1_001)));
    assert!(said.ends_with("an image has no more than 2000 nodes"), "{said}");
}
