//! The pages of texts: written out by hand, those stored beside the sample routines, and the
//! greatest there is.

use crate::binary::*;
use std::path::{Path, PathBuf};

fn repository() -> PathBuf {
    Path::new(env!("CARGO_MANIFEST_DIR")).join("../..")
}

fn page(text: &str) -> String {
    text_said(&["page", "-"], text.as_bytes())
}

#[test]
fn one_node_a_line() {
    let expected = "   0  1 Blk             0    8
   1  2 Bind            1    4
   2  3 Ref             0    4
   3  4 Id              0    4
   4  2 Assign          0    8
   5  3 Sum             0    8
   6  4 Id              1    7
   7  4 Id              1    8
";
    assert_eq!(page(DOUBLE), expected);
    assert_eq!(page("registers 16 (Num 4294967295)"), "   0  1 Num    4294967295    1\n");
    assert_eq!(page("registers 3 ()"), "");
}

/// An operand is the image's word: of a Formal name and type code, of a Call name and count.
#[test]
fn operands_as_in_the_image() {
    let text = "registers 1
        (Blk (Bind 7 (Abs (Formal 8 1) (Formal 9 2) (Blk (Bind 1 (Id 8)) (Assign 9 (Num 10)))))
          (Cond (Boo true) (Call 7 (Boo false) (DeRef 0)) (Assign 0 (Num 3))))";
    let expected = "   0  1 Blk             0   17
   1  2 Bind            7   10
   2  3 Abs             2   10
   3  4 Formal         72    4
   4  4 Formal        137    5
   5  4 Blk             0   10
   6  5 Bind            1    8
   7  6 Id              8    8
   8  5 Assign          9   10
   9  6 Num            10   10
  10  2 Cond            0   17
  11  3 Boo             1   12
  12  3 Call          135   15
  13  4 Boo             0   14
  14  4 DeRef           0   15
  15  3 Assign          0   17
  16  4 Num             3   17
";
    assert_eq!(page(text), expected);
}

/// A refusal is said as `find` says it, with its place in the text.
#[test]
fn refusals() {
    let text = "registers 1\n(CSeq (Assign 0 (Num 1))\n  (Assign 0 (Boo true)))\n";
    assert_eq!(page(text), text_said(&["find", "-"], text.as_bytes()));
    assert_eq!(page(text), "-:3:3: 11 type: the node takes another type\n");
    let file = stored("unbound.pi", b"registers 0\n(Not\n (Id 5))");
    let expected = format!("{file}:3:2: 10 unbound: the name has no binding\n");
    assert_eq!(text_said(&["page", &file], &[]), expected);
}

/// The names of the samples' files that end so, in order.
fn samples(extension: &str) -> Vec<String> {
    let folder = std::fs::read_dir(repository().join("examples")).expect("the samples");
    let paths = folder.map(|entry| entry.expect("a sample").path());
    let ending = paths.filter(|path| path.extension().is_some_and(|ends| ends == extension));
    let name = |path: PathBuf| path.file_stem().expect("a name").to_string_lossy().into_owned();
    let mut names: Vec<String> = ending.map(name).collect();
    names.sort();
    names
}

/// Every sample routine has its page beside it, and no page is without its routine.
#[test]
fn pages_of_the_sample_routines() {
    let names = samples("pi");
    assert_eq!(names, samples("page"));
    assert!(names.len() > 5);
    for name in names {
        let mut command = command(&["page", &format!("examples/{name}.pi")]);
        let child = command.current_dir(repository()).spawn().expect("it starts");
        let (output, error, status) = ended(child, &[]);
        assert_eq!((error.as_str(), status), ("", 0), "{name}");
        let page = std::fs::read(repository().join(format!("examples/{name}.page")));
        assert_eq!(output, page.expect("a page"), "{name}");
    }
}

/// By way of a text, which has some 1,500 lines.
#[test]
fn the_greatest_page() {
    let file = |name: &str| {
        let path = repository().join("tests/pages").join(name);
        std::fs::read(&path).unwrap_or_else(|error| panic!("{}: {error}", path.display()))
    };
    let text = text_said(&["text", "-"], &file("greatest.image"));
    assert!(page(&text).into_bytes() == file("greatest.page"));
}
