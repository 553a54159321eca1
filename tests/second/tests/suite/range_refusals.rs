//! Ranges refused: 22, the image, 20, 42, 43, 40, the lowest of 33 to 36, 44, in this order;
//! and both lists are kept by every one.

use crate::helpers::*;
use crate::refused_images::refused_images;
use second::build::*;
use second::engine::WORK_WORDS;
use second::tree::*;
use second::Refusal;

const FEW: usize = WORK_WORDS - 1;

fn once(name: Name) -> Command {
    call(name, vec![])
}

/// Functions each of which calls the one before it twice: far more than a million steps.
fn doubling() -> Command {
    let function = |name: Name| {
        let twice = || cseq(once(name - 1), once(name - 1));
        let command = if name == 1 { assign(0, num(1)) } else { twice() };
        bind_abs(name, &[], block(bind(63, num(0)), command))
    };
    (1..=40).rev().fold(once(40), |command, name| blk(function(name), command))
}

/// So many cells in blocks of ten.
fn cells(count: usize) -> Command {
    let block = |command| {
        let ten = (10..20).map(|name| bind_ref(name, num(0))).collect();
        blk(declarations(ten), command)
    };
    (0..count / 10).fold(assign(0, num(1)), |command, _| block(command))
}

fn unsafe_quotient() -> Command {
    assign(0, div(num(1), num(0)))
}

/// A Loop in a function that no one calls.
fn idle_loop(command: Command) -> Command {
    let endless = repeat(boo(true), assign(0, num(1)));
    blk(bind_abs(50, &[], block(bind(63, num(0)), endless)), command)
}

/// With all that comes behind it too, each refusal is the one told.
#[test]
fn in_their_order() {
    let all = |command| cseq(command, cseq(unsafe_quotient(), cells(300)));
    let long = || all(doubling());
    let looped = || idle_loop(long());
    let (fit, crossed) = ([(0, 9)], [(9, 0)]);
    let with = |root: Command, starts: &[(i64, i64)], work_length| {
        ends_with(&image(1, root), starts, work_length)
    };
    for starts in [&[][..], &fit, &crossed, &[(9, 0), (9, 0)]] {
        for work_length in [0, 1, FEW] {
            assert_eq!(with(looped(), starts, work_length), ends_refused(22, 0));
        }
        let unbound = cseq(looped(), assign(0, id(62)));
        let place = image(1, looped())[0] + 2;
        assert_eq!(with(unbound, starts, WORK_WORDS), ends_refused(10, place));
    }
    for work_length in [WORK_WORDS, WORK_WORDS + 1, 3 * WORK_WORDS] {
        assert_eq!(with(looped(), &[], work_length), ends_refused(20, 0));
        assert_eq!(with(looped(), &[(9, 0), (9, 0)], work_length), ends_refused(20, 0));
        assert_eq!(with(looped(), &crossed, work_length), ends_refused(42, 0));
        assert_eq!(with(looped(), &fit, work_length), ends_refused(43, 0));
        assert_eq!(with(long(), &fit, work_length), ends_refused(40, 0));
        assert_eq!(
            with(cseq(unsafe_quotient(), cells(300)), &fit, work_length),
            ends_refused(33, 0)
        );
        assert_eq!(with(unsafe_quotient(), &fit, work_length), ends_refused(44, 1));
        assert_eq!(with(assign(0, id(0)), &fit, work_length), Ok(vec![(0, 9)]));
    }
}

/// Each refusal of the image, with its place, as the checker has it; whatever the lists are.
#[test]
fn the_images_refusals() {
    for (number, place, image) in refused_images() {
        for starts in [&[][..], &[(0, 0)], &[(1, 0)], &[(1, 0); 20]] {
            assert_eq!(ends_with(&image, starts, WORK_WORDS), ends_refused(number, place));
            assert_eq!(ends_with(&image, starts, FEW), ends_refused(22, 0));
        }
    }
}

/// Either list may be too short or too long, the other one being right or wrong.
#[test]
fn either_list_is_20() {
    for registers in [0, 1, 2, 16] {
        let root = if registers == 0 { Root::Expression(num(1)) } else { assign(0, num(1)).into() };
        let image = image(registers, root);
        for (low, high) in (0..20).flat_map(|low| (0..20).map(move |high| (low, high))) {
            let (answer, lowest, highest) =
                ranges_over(&image, &vec![5; low], &vec![4; high], WORK_WORDS);
            let fits = low == registers as usize && high == registers as usize;
            let number = if !fits { 20 } else { 42 };
            let expected =
                if fits && registers == 0 { Ok(()) } else { Err(Refusal::whole(number)) };
            assert_eq!(answer, expected, "{registers} registers, {low} and {high}");
            assert_eq!((lowest, highest), (vec![5; low], vec![4; high]));
        }
    }
}

/// Any register's limits may be crossed, also by one, and of one that no node names.
#[test]
fn crossed_limits() {
    let sets = assign(0, num(1));
    for crossed in 0..16 {
        for (lowest, highest) in [(1, 0), (i64::MAX, i64::MIN), (i64::MIN + 1, i64::MIN), (0, -1)] {
            let mut starts = [(3, 3); 16];
            starts[crossed] = (lowest, highest);
            assert_eq!(ends_of(sets.clone(), &starts), ends_refused(42, 0));
            starts[crossed] = (highest, lowest);
            assert!(ends_of(sets.clone(), &starts).is_ok());
        }
    }
}

/// A Loop anywhere: called or not, in a command that is not carried, that is never entered.
#[test]
fn a_loop_anywhere() {
    let looped = || repeat(boo(false), assign(0, num(1)));
    let set = || assign(0, num(1));
    let function = |command| bind_abs(9, &[], block(bind(8, num(0)), command));
    for root in [
        looped(),
        cseq(set(), looped()),
        cond(boo(false), looped(), set()),
        cond(boo(true), set(), looped()),
        blk(bind(9, num(0)), looped()),
        blk(function(looped()), set()),
        blk(function(looped()), call(9, vec![])),
        idle_loop(unsafe_quotient()),
    ] {
        assert_eq!(ends_of(root, &[(0, 1)]), ends_refused(43, 0));
    }
}
