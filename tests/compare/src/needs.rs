//! One call of `pi_needs`, held against the second interpreter: its reply, the image, the
//! work words and every word beside the slices.
//!
//! Where the free runs are too many for the second interpreter to go through, the reply must
//! fit what it has found: no figure is lower, the steps are open or not, and if they are not
//! it may be 40.

use crate::difference::Difference;
use crate::engine::{self, NeedsReply};
use crate::lent::{replies, Lent};
use second::generate::random::Random;
use second::needs::{Figures, Needs, Steps, EFFORT, MOST_STEPS};
use second::refusal::TOO_MANY_STEPS;
use second::Refusal;

/// The reply with these figures.
fn reply_with(figures: Figures) -> NeedsReply {
    let Figures { room, steps } = figures;
    let (steps, open) = match steps {
        Steps::Most(steps) => (steps, 0),
        Steps::Open => (0, 1),
    };
    NeedsReply {
        refusal: 0,
        place: 0,
        control: room.control as u64,
        values: room.values as u64,
        cells: room.cells as u64,
        bindings: room.bindings as u64,
        steps,
        open,
    }
}

fn reply_refused(refusal: Refusal) -> NeedsReply {
    let Refusal { number, place } = refusal;
    NeedsReply { refusal: number.into(), place: place.into(), ..NeedsReply::default() }
}

/// Whether a reply says these needs, or fits what is known of them.
pub fn says(reply: NeedsReply, needs: Needs) -> bool {
    match needs {
        Needs::Figures(figures) => reply == reply_with(figures),
        Needs::Refused(refusal) => reply == reply_refused(refusal),
        Needs::AtLeast(figures) => {
            let least = reply_with(figures);
            let steps = match figures.steps {
                Steps::Most(steps) => steps..=MOST_STEPS,
                Steps::Open => 0..=0,
            };
            let figures = (reply.refusal, reply.place, reply.open) == (0, 0, least.open)
                && reply.control >= least.control
                && reply.values >= least.values
                && reply.cells >= least.cells
                && reply.bindings >= least.bindings
                && steps.contains(&reply.steps);
            let too_many = reply == reply_refused(Refusal::whole(TOO_MANY_STEPS));
            figures || (too_many && least.open == 0)
        }
    }
}

/// The reply that says these needs, where they are known.
pub fn reply_of(needs: Needs) -> Option<NeedsReply> {
    match needs {
        Needs::Figures(figures) => Some(reply_with(figures)),
        Needs::Refused(refusal) => Some(reply_refused(refusal)),
        Needs::AtLeast(_) => None,
    }
}

/// What is counted where the second interpreter does not know the figures.
pub const NOT_KNOWN: &str = "too many states to know the figures";

/// Needs without their numbers: the refusal, or 0, and the needs in words.
pub fn in_words(needs: Needs) -> (u32, String) {
    match needs {
        Needs::Figures(Figures { steps: Steps::Most(_), .. }) => (0, "figures".to_string()),
        Needs::Figures(_) => (0, "figures, steps open".to_string()),
        Needs::Refused(Refusal { number, .. }) => (number, format!("refused {number}")),
        Needs::AtLeast(_) => (0, NOT_KNOWN.to_string()),
    }
}

/// The needs of this image with a work slice of this length, if the engine and the second
/// interpreter agree on everything.
pub fn compare(
    image: &[u32],
    work_length: usize,
    random: &mut Random,
) -> Result<Needs, Box<Difference>> {
    compare_with(engine::needs, image, work_length, random)
}

/// The same for any function in the engine's place.
pub fn compare_with(
    needs: impl FnOnce(&[u32], &mut [u64]) -> NeedsReply,
    image: &[u32],
    work_length: usize,
    random: &mut Random,
) -> Result<Needs, Box<Difference>> {
    let expected = second::needs(image, work_length, EFFORT);
    let mut lent = Lent::new(image, work_length, random);

    let reply = needs(lent.image.slice(), lent.work.slice_mut());

    let mut faults = Vec::new();
    if !says(reply, expected) {
        let known = match expected {
            Needs::AtLeast(figures) => format!("at least {}", in_full(reply_with(figures))),
            known => in_full(reply_of(known).expect("it is known")),
        };
        faults.extend(replies(known, in_full(reply)));
    }
    faults.extend(lent.faults(expected.refusal()));
    if faults.is_empty() {
        return Ok(expected);
    }
    let call = format!("needs of {} words, work slice of {work_length} words", image.len());
    Err(Box::new(Difference { call, faults, image: image.to_vec(), bytes: Vec::new() }))
}

/// A reply as the paper would say it, with its numbers.
pub fn in_full(reply: NeedsReply) -> String {
    let NeedsReply { refusal, place, control, values, cells, bindings, steps, open } = reply;
    let figures = [control, values, cells, bindings, steps, open];
    let words = match (refusal, open) {
        (0, 0 | 1) if place == 0 && (open == 0 || steps == 0) => "figures",
        (1.., _) if figures == [0; 6] => "refused",
        _ => "what is no reply",
    };
    format!(
        "{words}: refusal {refusal}, place {place}, control {control}, values {values}, \
         cells {cells}, bindings {bindings}, steps {steps}, open {open}"
    )
}
