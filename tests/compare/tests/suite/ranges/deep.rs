//! Conds whose tests may be both, hundreds of them within each other through a chain of
//! functions: for each of them the engine keeps the cells on the stack. These calls are made
//! in threads with as much of it as a C host is told to have, and more.

use compare::ranges::{self, Lists, Ranged};
use second::build::*;
use second::carried::Range;
use second::engine::WORK_WORDS;
use second::generate::random::Random;
use second::tree::*;
use std::thread::Builder;

const STACK: usize = 16 << 20;
const FIRST: Name = 10;
const TRUTH: Name = 60;
const LITTLE: Name = 61;
const LOCAL: Name = 62;

/// Where the next Cond stands.
#[derive(Clone, Copy)]
enum Next {
    First,
    Second,
    InTurn,
}

/// So many Conds around a command; each of their other commands sets register 1 to its level.
fn nest(levels: u32, next: Next, inner: Command) -> Command {
    (0..levels).fold(inner, |inner, level| {
        let other = assign(1, num(level));
        let first = match next {
            Next::First => true,
            Next::Second => false,
            Next::InTurn => level % 2 == 0,
        };
        match first {
            true => cond(id(TRUTH), inner, other),
            false => cond(id(TRUTH), other, inner),
        }
    })
}

/// So many functions, each with so many Conds around a Call of the one before it; the first
/// one calls a function that adds 1 to register 2.
fn chain(functions: Name, levels: u32, next: Next) -> Vec<u32> {
    let function = |name, command| bind_abs(name, &[], block(bind(LOCAL, num(0)), command));
    let before = |name: Name| if name == FIRST { LITTLE } else { name - 1 };
    let mut all = vec![bind(TRUTH, lt(id(0), num(5)))];
    all.push(function(LITTLE, assign(2, sum(id(2), num(1)))));
    let calls = |name| nest(levels, next, call(name, vec![]));
    let last = FIRST + functions - 1;
    all.extend((FIRST..=last).map(|name| function(name, calls(before(name)))));
    image(3, blk(declarations(all), calls(last)))
}

/// What both say, in a thread with stack enough.
fn agreed(image: Vec<u32>, starts: [(i64, i64); 3]) -> Ranged {
    let compare = move || {
        let starts = starts.map(|(lowest, highest)| Range::new(lowest, highest));
        let random = &mut Random::new(1);
        let ranged = ranges::compare(&image, &Lists::of(&starts), WORK_WORDS, random)
            .unwrap_or_else(|difference| panic!("{difference}"));
        if ranged.answer.is_ok() {
            for _ in 0..3 {
                ranges::run_within(&image, &starts, &ranged.lists.ranges(), random)
                    .unwrap_or_else(|difference| panic!("{difference}"));
            }
        }
        ranged
    };
    let thread = Builder::new().stack_size(STACK).spawn(compare).expect("a thread");
    thread.join().expect("it ends")
}

#[test]
fn hundreds_of_choices_within_each_other() {
    for next in [Next::First, Next::Second, Next::InTurn] {
        for (functions, levels) in [(1, 50), (5, 50), (9, 45)] {
            let starts = [(0, 9), (100, 200), (7, 8)];
            let ranged = agreed(chain(functions, levels, next), starts);
            let ends = [Range::new(0, 9), Range::new(0, 200), Range::new(7, 9)];
            assert_eq!((ranged.answer, ranged.lists.ranges()), (Ok(()), ends.to_vec()));
        }
    }
}

/// The test can be only one truth: one way is gone, to the end or to the first other command.
#[test]
fn one_way_through_them() {
    for (start, most) in [(4, 4), (5, 5)] {
        let starts = [(start, start), (100, 200), (7, 8)];
        let ranged = agreed(chain(9, 45, Next::First), starts);
        let ends = match most {
            4 => [Range::new(4, 4), Range::new(100, 200), Range::new(8, 9)],
            _ => [Range::new(5, 5), Range::new(44, 44), Range::new(7, 8)],
        };
        assert_eq!((ranged.answer, ranged.lists.ranges()), (Ok(()), ends.to_vec()));
    }
}

/// Not safe within all of them, and behind all of them.
#[test]
fn unsafe_within_hundreds() {
    let far = (i64::MAX, i64::MAX);
    for next in [Next::First, Next::Second, Next::InTurn] {
        let ranged = agreed(chain(9, 45, next), [(0, 9), (100, 200), far]);
        // The Sum of the little function.
        assert_eq!(ranged.refused(), 44);
    }
}
