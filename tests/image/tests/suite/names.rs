//! The tables of refusals agree: the second interpreter's, its constants, the
//! header's and the one in the README. So does the order in which the reasons of a step
//! are told, and what is told of quotients.

use crate::binary::text_said;
use second::arithmetic::operate;
use second::execution::reasons_of_room;
use second::refusal::{Row, OUT_OF_RANGE, STEPS, TABLE, ZERO_DIVISOR};
use second::state::Heights;
use second::store::Value;
use second::tree::Operator;
use std::path::PathBuf;

/// A file of the repository.
fn file(name: &str) -> String {
    let path = PathBuf::from(env!("CARGO_MANIFEST_DIR")).join("../..").join(name);
    std::fs::read_to_string(&path).unwrap_or_else(|error| panic!("{}: {error}", path.display()))
}

/// A refusal's name as constants have it.
fn constant(row: &Row) -> String {
    row.name.to_uppercase().replace(' ', "_")
}

/// What stands before a piece, without blanks around it, and what stands behind.
fn cut<'t>(text: &'t str, piece: &str) -> (&'t str, &'t str) {
    let (before, behind) =
        text.split_once(piece).unwrap_or_else(|| panic!("no `{piece}` in `{text}`"));
    (before.trim(), behind)
}

/// A string in quotes and what stands behind it, where no other word is before it.
fn quoted(text: &str) -> (&str, &str) {
    let (before, string) = cut(text, "\"");
    assert_eq!(before, "", "a string must stand here: {text}");
    string.split_once('"').unwrap_or_else(|| panic!("no string ends: {text}"))
}

/// The lines of the macro with the header's rows, without the backslashes at their ends.
fn header_list(header: &str) -> String {
    let (_, list) = header
        .split_once("#define PI_REFUSAL_LIST(ROW)")
        .expect("the header defines PI_REFUSAL_LIST(ROW)");
    let mut text = String::new();
    for line in list.lines() {
        match line.trim_end().strip_suffix('\\') {
            Some(line) => text += line,
            None => return text + line,
        }
    }
    text
}

/// The rows of the header: enumerator, number, name and sentence.
fn header_rows(header: &str) -> Vec<(String, u32, String, String)> {
    let list = header_list(header);
    let mut rows = Vec::new();
    for row in list.split("ROW(").skip(1) {
        let (enumerator, rest) = cut(row, ",");
        let (number, rest) = cut(rest, ",");
        let (name, rest) = quoted(rest);
        let (between, rest) = cut(rest, ",");
        let (sentence, rest) = quoted(rest);
        let (behind, _) = cut(rest, ")");
        assert_eq!((between, behind), ("", ""), "{row}");
        let number = number.parse().unwrap_or_else(|_| panic!("{number} is no number"));
        rows.push((enumerator.to_string(), number, name.to_string(), sentence.to_string()));
    }
    rows
}

/// The cells of a row of a table in Markdown.
fn cells(line: &str) -> Vec<&str> {
    line.trim().trim_matches('|').split('|').map(str::trim).collect()
}

#[test]
fn numbers_ascend_and_names_differ() {
    assert!(TABLE.windows(2).all(|rows| rows[0].number < rows[1].number));
    for row in TABLE {
        assert_eq!(TABLE.iter().filter(|other| other.name == row.name).count(), 1);
        assert_eq!(second::refusal::row_of(row.number), &row);
        let said = [row.name, row.sentence].concat();
        assert!(said.is_ascii() && !said.ends_with('.') && !said.contains('|'));
        assert_eq!(row.place_is_node, (3..=14).contains(&row.number) || row.number == 44);
    }
    assert_eq!(second::refusal::title(13), "13 not assignable");
    assert_eq!(second::refusal::line(11), "11 type: the node takes another type");
}

/// Every constant of the second interpreter has its row, under its name.
#[test]
fn every_constant_has_its_row() {
    let source = file("tests/second/src/refusal.rs");
    let constants: Vec<(&str, u32)> = source
        .lines()
        .filter_map(|line| line.strip_prefix("pub const ")?.split_once(": u32 = "))
        .map(|(name, number)| (name, number.trim_end_matches(';').parse().unwrap()))
        .collect();
    let rows: Vec<(String, u32)> = TABLE.iter().map(|row| (constant(row), row.number)).collect();
    assert_eq!(constants.len(), rows.len());
    for (found, row) in constants.iter().zip(&rows) {
        assert_eq!(*found, (row.0.as_str(), row.1));
    }
}

#[test]
fn the_header_has_the_table() {
    let rows = header_rows(&file("include/pi_engine.h"));
    let expected: Vec<(String, u32, String, String)> = TABLE
        .iter()
        .map(|row| {
            let enumerator = format!("PI_REFUSAL_{}", constant(row));
            (enumerator, row.number, row.name.to_string(), row.sentence.to_string())
        })
        .collect();
    assert_eq!(rows, expected);
}

/// Enumerators that the header writes out have the table's numbers too.
#[test]
fn the_enumerators_have_their_numbers() {
    let header = file("include/pi_engine.h");
    let written = header.lines().filter_map(|line| {
        let (name, behind) = line.trim().strip_prefix("PI_REFUSAL_")?.split_once(" = ")?;
        let end = behind.find(|character: char| !character.is_ascii_digit());
        Some((name, &behind[..end.unwrap_or(behind.len())]))
    });
    for (name, number) in written {
        let is = |row: &Row| constant(row) == name && row.number.to_string() == number;
        assert!((name, number) == ("NONE", "0") || TABLE.iter().any(is), "{name} = {number}");
    }
}

/// A row's place is the node, with more said of it or not, or there is none.
#[test]
fn the_readme_has_the_table() {
    let readme = file("README.md");
    let mut lines = readme.lines();
    let heading = ["Number", "Name", "What it says", "Place"];
    assert!(lines.any(|line| cells(line) == heading), "the README has no table of refusals");
    let rows: Vec<Vec<&str>> = lines
        .take_while(|line| line.trim_start().starts_with('|'))
        .map(cells)
        .filter(|cells| cells[0].parse::<u32>().is_ok())
        .collect();
    assert_eq!(rows.len(), TABLE.len());
    for (cells, row) in rows.iter().zip(TABLE) {
        assert_eq!(cells[..3], [row.number.to_string().as_str(), row.name, row.sentence]);
        let place = cells[3];
        assert_eq!(cells.len(), 4, "{cells:?}");
        let right = if row.place_is_node { place.starts_with("the node") } else { place == "–" };
        assert!(right, "{cells:?}");
    }
}

/// What a quotient is rounded to, which stands in each text for users, is the second
/// interpreter's.
#[test]
fn quotients_are_told() {
    let quotient = |left, right| {
        let (left, right) = (Value::Integer(left), Value::Integer(right));
        match operate(Operator::Div, left, right) {
            Some(Ok(Value::Integer(quotient))) => quotient,
            other => panic!("{other:?}"),
        }
    };
    assert_eq!(quotient(-7, 2), quotient(7, -2));
    let told = format!("-7 by 2 and 7 by -2 are {}", quotient(7, -2));
    let texts = ["README.md", "CHANGELOG.md", "include/pi_engine.h", "tests/image/README.md"];
    for text in texts.map(file).into_iter().chain([text_said(&["help"], &[])]) {
        let words: Vec<&str> = text.split_whitespace().filter(|word| *word != "*").collect();
        assert!(words.join(" ").contains(&told), "no `{told}`");
    }
}

/// The order of the reasons of a step, which stands in each text for users, is the second
/// interpreter's: the budget, the two of arithmetic, and those of room.
#[test]
fn the_order_of_the_reasons_is_told() {
    let over = Heights { cells: 257, bindings: 513, values: 513, control: 513 };
    let of_room = reasons_of_room(over).into_iter().flatten();
    let order: Vec<String> = [STEPS, ZERO_DIVISOR, OUT_OF_RANGE]
        .into_iter()
        .chain(of_room)
        .map(|number| number.to_string())
        .collect();
    let told = format!("the order {} is", order.join(", "));
    let texts = ["README.md", "include/pi_engine.h", "tests/image/README.md"].map(file);
    for text in texts.into_iter().chain([text_said(&["help"], &[])]) {
        let words: Vec<&str> = text.split_whitespace().filter(|word| *word != "*").collect();
        assert!(words.join(" ").contains(&told), "no `{told}`");
    }
}
