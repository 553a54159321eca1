//! The cases written by hand for the second interpreter, with the engine beside
//! it: the same files, over helpers that compare every call both ways.

mod helpers;
#[path = "../../../second/tests/suite/replies.rs"]
mod replies;

#[path = "../../../second/tests/suite/arithmetic.rs"]
mod arithmetic;
#[path = "../../../second/tests/suite/blocks.rs"]
mod blocks;
#[path = "../../../second/tests/suite/budget.rs"]
mod budget;
#[path = "../../../second/tests/suite/bytes.rs"]
mod bytes;
#[path = "../../../second/tests/suite/calls.rs"]
mod calls;
#[path = "../../../second/tests/suite/cases.rs"]
mod cases;
#[path = "../../../second/tests/suite/choice_limits.rs"]
mod choice_limits;
#[path = "../../../second/tests/suite/choice_states.rs"]
mod choice_states;
#[path = "../../../second/tests/suite/choice_types.rs"]
mod choice_types;
#[path = "../../../second/tests/suite/choices.rs"]
mod choices;
#[path = "../../../second/tests/suite/division.rs"]
mod division;
#[path = "../../../second/tests/suite/limits.rs"]
mod limits;
#[path = "../../../second/tests/suite/marks.rs"]
mod marks;
#[path = "../../../second/tests/suite/need_functions.rs"]
mod need_functions;
#[path = "../../../second/tests/suite/need_limits.rs"]
mod need_limits;
#[path = "../../../second/tests/suite/need_refusals.rs"]
mod need_refusals;
#[path = "../../../second/tests/suite/need_steps.rs"]
mod need_steps;
#[path = "../../../second/tests/suite/needs.rs"]
mod needs;
#[path = "../../../second/tests/suite/no_routine.rs"]
mod no_routine;
#[path = "../../../second/tests/suite/page_claims.rs"]
mod page_claims;
#[path = "../../../second/tests/suite/page_limits.rs"]
mod page_limits;
#[path = "../../../second/tests/suite/page_refusals.rs"]
mod page_refusals;
#[path = "../../../second/tests/suite/pages.rs"]
mod pages;
#[path = "../../../second/tests/suite/range_choices.rs"]
mod range_choices;
#[path = "../../../second/tests/suite/range_functions.rs"]
mod range_functions;
#[path = "../../../second/tests/suite/range_limits.rs"]
mod range_limits;
#[path = "../../../second/tests/suite/range_places.rs"]
mod range_places;
#[path = "../../../second/tests/suite/range_refusals.rs"]
mod range_refusals;
#[path = "../../../second/tests/suite/ranges.rs"]
mod ranges;
#[path = "../../../second/tests/suite/refused_images.rs"]
mod refused_images;
#[path = "../../../second/tests/suite/sequence_limits.rs"]
mod sequence_limits;
#[path = "../../../second/tests/suite/sequence_types.rs"]
mod sequence_types;
#[path = "../../../second/tests/suite/sequences.rs"]
mod sequences;
#[path = "../../../second/tests/suite/shape.rs"]
mod shape;
#[path = "../../../second/tests/suite/towers.rs"]
mod towers;
#[path = "../../../second/tests/suite/types.rs"]
mod types;
