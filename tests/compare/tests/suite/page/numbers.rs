//! Replies in the engine's numbers and pages in its bytes, which are asked of nobody.

use compare::engine::{self, PageReply};
use second::build::*;
use second::engine::WORK_WORDS;

/// The engine's reply and the lent page after it, which held so many times the byte `#`; the
/// first 8,192 of the marked work words become 0.
fn reply(image: &[u32], page_length: usize) -> (PageReply, String) {
    let marked: Vec<u64> = (1..=WORK_WORDS as u64 + 8).collect();
    let mut work = marked.clone();
    let mut page = vec![b'#'; page_length];
    let reply = engine::page(image, &mut page, &mut work);
    assert!(work[..WORK_WORDS].iter().all(|word| *word == 0));
    assert_eq!(work[WORK_WORDS..], marked[WORK_WORDS..]);
    (reply, String::from_utf8(page).expect("a text"))
}

/// With a page of so many bytes the reply is this refusal, and the page is as it was.
fn refused(image: &[u32], page_length: usize, refusal: u64, place: u64) {
    let (reply, page) = reply(image, page_length);
    assert_eq!(reply, PageReply { refusal, place });
    assert_eq!(page, "#".repeat(page_length));
}

const WRITTEN: PageReply = PageReply { refusal: 0, place: 0 };

#[test]
fn lines_and_what_is_beyond_them() {
    // 5 × (3 + 2).
    let lines = "   0  1 Mul             0    5
   1  2 Num             5    2
   2  2 Sum             0    5
   3  3 Num             3    4
   4  3 Num             2    5
";
    let image = [5, 0, 6, 1, 4, 1, 1, 0, 5, 0, 3, 2];
    for more in [0, 1, 7, 31, 1_000] {
        let expected = lines.to_string() + &"#".repeat(more);
        assert_eq!(reply(&image, 155 + more), (WRITTEN, expected));
    }
}

/// Formals and the Blk of a function, the actuals of a Call, and the commands of a Cond.
#[test]
fn depths_ends_and_operands() {
    let body = block(bind(4, id(2)), assign(3, id(4)));
    let function = bind_abs(63, &[(2, 0), (3, 2)], body);
    let calls = call(63, vec![num(u32::MAX), deref(0)]);
    let root = blk(function, cond(boo(true), calls, assign(0, num(7))));
    let lines = "   0  1 Blk             0   17
   1  2 Bind           63   10
   2  3 Abs             2   10
   3  4 Formal          2    4
   4  4 Formal        131    5
   5  4 Blk             0   10
   6  5 Bind            4    8
   7  6 Id              2    8
   8  5 Assign          3   10
   9  6 Id              4   10
  10  2 Cond            0   17
  11  3 Boo             1   12
  12  3 Call          191   15
  13  4 Num    4294967295   14
  14  4 DeRef           0   15
  15  3 Assign          0   17
  16  4 Num             7   17
";
    assert_eq!(reply(&image(1, root), 17 * 31), (WRITTEN, lines.to_string()));
}

#[test]
fn refusals_write_no_byte() {
    refused(&[], 0, 1, 0);
    refused(&[], 100, 1, 0);
    refused(&[0, 17], 100, 2, 0);
    refused(&[1, 0, 99, 0], 100, 3, 0);
    refused(&[2, 0, 15, 2, 0, 2], 100, 4, 1);
    refused(&[1, 0, 15, 0], 100, 5, 1);
    refused(&image(0, (0..64).fold(boo(true), |operand, _| not(operand))), 70_000, 6, 64);
    refused(&image(1, cseq(assign(0, num(1)), assign(0, id(9)))), 1_000, 10, 4);
    refused(&image(1, assign(0, boo(true))), 0, 11, 0);
    for length in [0, 1, 30, 31, 61] {
        refused(&image(0, not(boo(true))), length, 41, 0);
    }
}

#[test]
fn too_few_work_words_are_22() {
    for length in [0, 1, WORK_WORDS - 1] {
        for page_length in [0, 31] {
            let (mut work, mut page) = (vec![7; length], vec![b'#'; page_length]);
            let reply = engine::page(&[1, 0, 1, 5], &mut page, &mut work);
            assert_eq!(reply, PageReply { refusal: 22, place: 0 });
            assert_eq!((work, page), (vec![7; length], vec![b'#'; page_length]));
        }
    }
}
