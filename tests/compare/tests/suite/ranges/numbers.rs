//! Replies and lists in the engine's numbers, which are asked of nobody.

use compare::engine::{self, RangesReply};
use second::build::*;
use second::engine::WORK_WORDS;
use second::generate::steps::of_steps;
use second::tree::*;

/// The engine's reply and the ends; the first 8,192 of the marked work words become 0.
fn reply(image: &[u32], starts: &[(i64, i64)]) -> (RangesReply, Vec<(i64, i64)>) {
    let marked: Vec<u64> = (1..=WORK_WORDS as u64 + 8).collect();
    let mut work = marked.clone();
    let (mut lowest, mut highest): (Vec<i64>, Vec<i64>) = starts.iter().copied().unzip();
    let reply = engine::ranges(image, &mut lowest, &mut highest, &mut work);
    assert!(work[..WORK_WORDS].iter().all(|word| *word == 0));
    assert_eq!(work[WORK_WORDS..], marked[WORK_WORDS..]);
    (reply, lowest.into_iter().zip(highest).collect())
}

/// No refusal, and these ends.
fn gives(root: impl Into<Root>, starts: &[(i64, i64)], ends: &[(i64, i64)]) {
    let found = reply(&image(starts.len() as u32, root), starts);
    assert_eq!(found, (RangesReply { refusal: 0, place: 0 }, ends.to_vec()));
}

/// This refusal, and the lists as they were.
fn refuses(image: &[u32], starts: &[(i64, i64)], refusal: u64, place: u64) {
    assert_eq!(reply(image, starts), (RangesReply { refusal, place }, starts.to_vec()));
}

const LEAST: i64 = i64::MIN;
const MOST: i64 = i64::MAX;

#[test]
fn the_customers_rack() {
    // Levels times 450 millimetres; a drive by whether that is more than 15 metres.
    let travel = assign(1, mul(id(0), num(450)));
    let drive = cond(
        gt(id(1), num(15_000)),
        assign(2, sum(div(id(1), num(1_200)), num(9))),
        assign(2, sum(div(id(1), num(800)), num(6))),
    );
    let starts = [(20, 40), (0, 0), (0, 0)];
    gives(cseq(travel, drive), &starts, &[(20, 40), (9_000, 18_000), (16, 28)]);
    gives(assign(0, sub(id(0), id(0))), &[(20, 40)], &[(-20, 20)]);
}

#[test]
fn each_operator_at_the_ends_of_the_integers() {
    use Operator::*;
    let set = |operator| assign(0, binary(operator, id(0), id(1)));
    for (operator, left, right, end) in [
        (Sum, (LEAST, 0), (0, MOST), (LEAST, MOST)),
        (Sub, (-1, -1), (LEAST, LEAST), (MOST, MOST)),
        (Sub, (LEAST, -1), (0, 0), (LEAST, -1)),
        (Mul, (LEAST + 1, MOST), (-1, 1), (LEAST + 1, MOST)),
        (
            Mul,
            (-3_037_000_499, 3_037_000_499),
            (-3_037_000_499, 3_037_000_499),
            (-9_223_372_030_926_249_001, 9_223_372_030_926_249_001),
        ),
        (Div, (LEAST, MOST), (1, MOST), (LEAST, MOST)),
        (Div, (LEAST + 1, MOST), (LEAST, -1), (LEAST + 1, MOST)),
        (Div, (-7, 7), (2, 3), (-4, 3)),
    ] {
        gives(set(operator), &[left, right], &[end, right]);
    }
    for (operator, left, right) in [
        (Sum, (0, MOST), (0, 1)),
        (Sum, (LEAST, 0), (-1, 0)),
        (Sub, (LEAST, 0), (0, 1)),
        (Sub, (0, 0), (LEAST, 0)),
        (Mul, (LEAST, 0), (-1, 1)),
        (Mul, (0, 3_037_000_500), (0, 3_037_000_500)),
        (Div, (LEAST, 0), (-1, -1)),
        (Div, (1, 1), (-1, 1)),
        (Div, (1, 1), (0, 5)),
        (Div, (1, 1), (-5, 0)),
    ] {
        refuses(&image(2, set(operator)), &[left, right], 44, 1);
    }
}

#[test]
fn every_refusal() {
    let set = || assign(0, num(1));
    refuses(&[], &[(0, 1)], 1, 0);
    refuses(&[0, 17], &[(0, 1)], 2, 0);
    refuses(&[1, 0, 99, 0], &[], 3, 0);
    refuses(&image(1, cseq(set(), assign(0, id(9)))), &[(0, 1)], 10, 4);
    refuses(&image(1, set()), &[], 20, 0);
    refuses(&image(1, set()), &[(0, 1), (0, 1)], 20, 0);
    refuses(&image(1, set()), &[(1, 0)], 42, 0);
    refuses(&image(1, repeat(boo(false), set())), &[(0, 1)], 43, 0);
    refuses(&image(1, of_steps(1_000_001)), &[(0, 1)], 40, 0);
    let cells = |count: usize| {
        let ten = || declarations((10..20).map(|name| bind_ref(name, num(0))).collect());
        (0..count / 10).fold(set(), |command, _| blk(ten(), command))
    };
    refuses(&image(1, cells(260)), &[(0, 1)], 33, 0);
    gives(cells(250), &[(0, 1)], &[(1, 1)]);
    gives(of_steps(1_000_000), &[(0, 1)], &[(1, 1)]);
}

/// Lists of which one is of another length are kept whole, the other one too.
#[test]
fn one_list_of_another_length() {
    let image = image(2, assign(0, num(1)));
    for (low, high) in [(0, 0), (1, 2), (2, 1), (2, 3), (3, 2), (0, 2), (2, 0), (17, 2)] {
        let (mut lowest, mut highest) = (vec![3; low], vec![4; high]);
        let reply = engine::ranges(&image, &mut lowest, &mut highest, &mut [1; WORK_WORDS]);
        assert_eq!(reply, RangesReply { refusal: 20, place: 0 });
        assert_eq!((lowest, highest), (vec![3; low], vec![4; high]));
    }
}

#[test]
fn too_few_work_words_are_22() {
    for length in [0, 1, WORK_WORDS - 1] {
        let mut work = vec![7; length];
        let (mut lowest, mut highest) = ([5], [4]);
        let reply = engine::ranges(&[0, 1], &mut lowest, &mut highest, &mut work);
        assert_eq!(reply, RangesReply { refusal: 22, place: 0 });
        assert_eq!((work, lowest, highest), (vec![7; length], [5], [4]));
    }
}
