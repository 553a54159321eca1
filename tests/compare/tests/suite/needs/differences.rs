//! The comparison itself: functions that are wrong on purpose stand in the engine's place,
//! and each is found out and shown for what it is.

use crate::helpers::{papers_images, CALCULATOR, CALCULATOR_SHOWN};
use crate::image_calls::work_words_count;
use compare::engine::NeedsReply;
use compare::needs::{compare_with, reply_of, says};
use second::build::*;
use second::engine::WORK_WORDS;
use second::generate::random::Random;
use second::needs::{Figures, Needs, Steps, EFFORT};
use second::state::Heights;

/// What the second interpreter says, made by a function as a right engine would.
fn right(image: &[u32], work: &mut [u64]) -> NeedsReply {
    let needs = second::needs(image, work.len(), EFFORT);
    second::engine::settle_work(work, needs.refusal());
    reply_of(needs).expect("it is known")
}

/// The text of the difference that must be found.
fn found(
    needs: impl FnOnce(&[u32], &mut [u64]) -> NeedsReply,
    image: &[u32],
    length: usize,
) -> String {
    let random = &mut Random::new(1);
    compare_with(needs, image, length, random).expect_err("a difference").to_string()
}

#[test]
fn a_right_function_differs_nowhere() {
    let random = &mut Random::new(2);
    for (_, image, answer) in papers_images() {
        for length in [WORK_WORDS, WORK_WORDS + 7] {
            let needs = compare_with(right, &image, length, random).unwrap();
            assert_eq!(needs.refusal(), answer.refusal());
        }
        assert!(compare_with(right, &image, 5, random).is_ok());
    }
}

#[test]
fn a_wrong_answer_is_shown_with_the_tree_and_the_words() {
    let refuse = |image: &[u32], work: &mut [u64]| {
        right(image, work);
        NeedsReply { refusal: 11, place: 2, ..NeedsReply::default() }
    };
    let expected = "\
needs of 12 words, work slice of 8192 words
  the second interpreter says figures: refusal 0, place 0, control 4, values 3, cells 0, \
bindings 0, steps 7, open 0
  the engine says             refused: refusal 11, place 2, control 0, values 0, cells 0, \
bindings 0, steps 0, open 0
";
    let shown = format!("{expected}{CALCULATOR_SHOWN}");
    assert_eq!(found(refuse, &CALCULATOR, WORK_WORDS), shown);
}

#[test]
fn each_number_of_the_reply_counts() {
    let wrongs: [fn(&mut NeedsReply); 8] = [
        |reply| reply.refusal ^= 1,
        |reply| reply.place ^= 1,
        |reply| reply.control ^= 1,
        |reply| reply.values ^= 1,
        |reply| reply.cells ^= 1,
        |reply| reply.bindings ^= 1,
        |reply| reply.steps ^= 1,
        |reply| reply.open ^= 1,
    ];
    for (_, image, _) in papers_images() {
        for wrong in wrongs {
            let needs = |image: &[u32], work: &mut [u64]| {
                let mut reply = right(image, work);
                wrong(&mut reply);
                reply
            };
            assert!(found(needs, &image, WORK_WORDS).contains("the engine says"));
        }
    }
}

#[test]
fn work_words_left_or_touched_are_found() {
    work_words_count(&right, |call, image, length| found(call, image, length));
}

/// What fits where the figures are not known: no less, open or not, and 40 without a Loop.
#[test]
fn what_is_not_known_is_held_to_what_is() {
    let room = Heights { cells: 3, bindings: 4, values: 5, control: 6 };
    let reply = |steps, open| NeedsReply {
        control: 6,
        values: 5,
        cells: 3,
        bindings: 4,
        steps,
        open,
        ..NeedsReply::default()
    };
    let too_many = NeedsReply { refusal: 40, ..NeedsReply::default() };
    let open = Needs::AtLeast(Figures { room, steps: Steps::Open });
    let counted = Needs::AtLeast(Figures { room, steps: Steps::Most(1_000) });
    assert!(says(reply(0, 1), open) && !says(reply(0, 0), open) && !says(reply(1, 1), open));
    assert!(!says(too_many, open) && says(too_many, counted));
    for (steps, fits) in [(999, false), (1_000, true), (1_000_000, true), (1_000_001, false)] {
        assert_eq!(says(reply(steps, 0), counted), fits, "{steps} steps");
    }
    assert!(!says(reply(0, 1), counted));
    let changes: [fn(&mut NeedsReply, u64); 4] = [
        |reply, by| reply.control = 5 + by,
        |reply, by| reply.values = 4 + by,
        |reply, by| reply.cells = 2 + by,
        |reply, by| reply.bindings = 3 + by,
    ];
    for change in changes {
        for (by, fits) in [(0, false), (1, true), (7, true)] {
            let mut changed = reply(0, 1);
            change(&mut changed, by);
            assert_eq!(says(changed, open), fits);
        }
    }
    for wrong in [NeedsReply { place: 1, ..too_many }, NeedsReply { steps: 1, ..too_many }] {
        assert!(!says(wrong, counted));
    }
    assert!(!says(NeedsReply { refusal: 39, ..too_many }, counted));
    assert!(!says(NeedsReply { place: 1, ..reply(0, 1) }, open));
}

/// A call of which the second interpreter does not know the figures, all the same.
#[test]
fn a_wrong_figure_among_too_many_states_is_found() {
    let once = |name| call(name, vec![]);
    let function = |name| {
        let twice = || cseq(once(name - 1), once(name - 1));
        let command = if name == 1 { repeat(boo(true), assign(0, num(1))) } else { twice() };
        bind_abs(name, &[], block(bind(63, num(0)), command))
    };
    let root = (1..=40).rev().fold(once(40), |command, name| blk(function(name), command));
    let image = image(1, root);
    // What the formula says: the innermost function is come to at once.
    let room = NeedsReply {
        control: 163,
        values: 242,
        cells: 1,
        bindings: 81,
        open: 1,
        ..NeedsReply::default()
    };
    let answering = |reply: NeedsReply| {
        move |_: &[u32], work: &mut [u64]| {
            work[..WORK_WORDS].fill(0);
            reply
        }
    };
    let random = &mut Random::new(3);
    let compared = compare_with(answering(room), &image, WORK_WORDS, random);
    assert!(matches!(compared, Ok(Needs::AtLeast(_))));
    for wrong in [
        NeedsReply { control: 162, ..room },
        NeedsReply { values: 241, ..room },
        NeedsReply { cells: 0, ..room },
        NeedsReply { bindings: 80, ..room },
        NeedsReply { open: 0, ..room },
        NeedsReply { refusal: 40, ..NeedsReply::default() },
    ] {
        let text = found(answering(wrong), &image, WORK_WORDS);
        assert!(text.contains("the second interpreter says at least figures: "), "{text}");
    }
}
