//! What holds of every page, tried on generated images: the image can be read from it again,
//! its columns are filled as they must be, and its depths and ends tell the same tree.

use crate::helpers::*;
use second::generate::Family;
use second::kinds::TABLE;

/// A line, taken apart.
struct Line {
    node: usize,
    depth: usize,
    name: String,
    operand: u32,
    end: usize,
}

/// A number to the right of its columns, with blanks before it and no 0.
fn number(columns: &str) -> u32 {
    let digits = columns.trim_start_matches(' ');
    assert!(digits == "0" || !digits.starts_with('0'), "{columns}");
    assert!(digits.bytes().all(|byte| byte.is_ascii_digit()), "{columns}");
    digits.parse().expect("a number")
}

/// A name to the left of its columns, with blanks behind it.
fn name(columns: &str) -> String {
    let name = columns.trim_end_matches(' ');
    assert!(name.bytes().all(|byte| byte.is_ascii_alphabetic()), "{columns}");
    name.to_string()
}

fn lines(page: &str) -> Vec<Line> {
    assert!(page.is_ascii() && page.len().is_multiple_of(31));
    let line = |node: usize| {
        let line = &page[31 * node..31 * (node + 1)];
        for column in [5, 8, 15, 26] {
            assert_eq!(&line[column - 1..column], " ", "{line}");
        }
        assert_eq!(&line[30..], "\n", "{line}");
        Line {
            node: number(&line[0..4]) as usize,
            depth: number(&line[5..7]) as usize,
            name: name(&line[8..14]),
            operand: number(&line[15..25]),
            end: number(&line[26..30]) as usize,
        }
    };
    (0..page.len() / 31).map(line).collect()
}

/// The lines of generated images that pass, each with its image; so many of each family.
fn generated(count: u64) -> Vec<(Vec<u32>, Vec<Line>)> {
    let families = [
        Family::Small,
        Family::Medium,
        Family::Large,
        Family::Faulty,
        Family::Sequences,
        Family::Choices,
        Family::Functions,
        Family::Limits,
        Family::Empty,
        Family::Shaped,
    ];
    let mut all = Vec::new();
    for family in families {
        for seed in 0..count {
            let image = family.case(0xa11 + seed).image;
            if checked(&image).refusal().is_none() {
                let lines = lines(&paged(&image));
                all.push((image, lines));
            }
        }
    }
    assert!(all.len() as u64 > 6 * count, "{} images pass", all.len());
    all
}

#[test]
fn an_image_can_be_read_from_its_page() {
    for (image, lines) in generated(60) {
        let kind = |line: &Line| {
            let row = TABLE.iter().find(|row| row.name == line.name);
            row.unwrap_or_else(|| panic!("no kind {}", line.name)).number
        };
        let mut words = vec![lines.len() as u32, image[1]];
        words.extend(lines.iter().map(kind));
        words.extend(lines.iter().map(|line| line.operand));
        assert_eq!(words, image);
        assert!(lines.iter().enumerate().all(|(place, line)| line.node == place));
    }
}

/// A node's descendants are the nodes behind it that lie deeper, up to the first that does
/// not; and it lies as deep as there are nodes that end behind it, itself among them.
#[test]
fn depths_and_ends_tell_the_same_tree() {
    for (_, lines) in generated(60) {
        for (place, line) in lines.iter().enumerate() {
            let deeper = lines[place + 1..].iter().take_while(|other| other.depth > line.depth);
            assert_eq!(line.end, place + 1 + deeper.count());
            let around = lines[..=place].iter().filter(|other| other.end > place);
            assert_eq!(line.depth, around.count());
        }
    }
}
