//! The needs of a routine before it is loaded: the most control entries, value entries,
//! cells and bindings over all states of all free runs, and the most steps of a free run
//! if no Loop is in the tree.
//!
//! They are found by going through the free runs, both ways at each test. So that no part is
//! gone through again and again, the states are known again at crossings: where two ways
//! part, at a test's mark, and where they meet again, behind a Cond. In its next round a
//! Loop comes to its own mark.

use crate::alike::Alike;
use crate::effect::Effect;
use crate::free_run::{FreeRun, Next};
use crate::node::Node;
use crate::refusal::{Refusal, TOO_MANY_STEPS};
use crate::state::Heights;
use crate::tree::Routine;
use std::collections::HashMap;
use std::rc::Rc;

/// The most steps that are given as a figure.
pub const MOST_STEPS: u64 = 1_000_000;
/// The effort where no one says otherwise: enough for a run of more than [`MOST_STEPS`].
pub const EFFORT: u64 = 4_000_000;

/// The most of each size, and the most steps.
#[derive(Clone, Copy, Debug, PartialEq, Eq)]
pub struct Figures {
    pub room: Heights,
    pub steps: Steps,
}

#[derive(Clone, Copy, Debug, PartialEq, Eq)]
pub enum Steps {
    Most(u64),
    /// There is a Loop in the tree.
    Open,
}

/// What is known of a routine's needs.
#[derive(Clone, Copy, Debug, PartialEq, Eq)]
pub enum Needs {
    Figures(Figures),
    Refused(Refusal),
    /// The effort did not do for all states. Those gone through reach so much: no figure
    /// is lower, unless it is 40 that they are refused with.
    AtLeast(Figures),
}

/// Figures without a Loop.
pub fn given(control: usize, values: usize, cells: usize, bindings: usize, steps: u64) -> Needs {
    let room = Heights::new(cells, bindings, values, control);
    Needs::Figures(Figures { room, steps: Steps::Most(steps) })
}

/// Figures with a Loop.
pub fn open(control: usize, values: usize, cells: usize, bindings: usize) -> Needs {
    let room = Heights::new(cells, bindings, values, control);
    Needs::Figures(Figures { room, steps: Steps::Open })
}

impl Needs {
    pub fn refusal(self) -> Option<Refusal> {
        match self {
            Needs::Refused(refusal) => Some(refusal),
            _ => None,
        }
    }
}

/// The needs of a routine that has passed, as far as they show with this effort: each
/// state gone through counts one, and so does each entry of a state that is kept.
pub fn needs(routine: &Routine, effort: u64) -> Needs {
    let open = has_loop(routine);
    let mut search = Search::new(if open { u64::MAX } else { MOST_STEPS }, effort);
    let too_many = Needs::Refused(Refusal::whole(TOO_MANY_STEPS));
    match search.go_through(routine) {
        Ok(()) if open => Needs::Figures(search.figures(Steps::Open)),
        Ok(()) => match search.longest() {
            steps @ ..=MOST_STEPS => Needs::Figures(search.figures(Steps::Most(steps))),
            _ => too_many,
        },
        Err(Enough::Steps) => too_many,
        Err(Enough::Effort) if open => Needs::AtLeast(search.figures(Steps::Open)),
        Err(Enough::Effort) => Needs::AtLeast(search.figures(Steps::Most(search.farthest))),
    }
}

/// Whether there is a Loop in the tree, also in a function that is never called.
pub fn has_loop(routine: &Routine) -> bool {
    routine.root.preorder().iter().any(|(node, _)| matches!(node, Node::Loop(_)))
}

/// A search through the free runs of a routine.
struct Search<'t> {
    /// A free run with more steps ends the search.
    most_steps: u64,
    /// What is left of it.
    effort: u64,
    /// The most of each size so far.
    room: Heights,
    /// The most steps made on one way so far.
    farthest: u64,
    start: Option<Way>,
    /// The crossings met, and the number of each.
    crossings: Vec<Crossing<'t>>,
    numbers: HashMap<Rc<Alike<'t>>, usize>,
    /// Those whose ways are still to go.
    pending: Vec<usize>,
}

/// A state at which ways part or meet.
struct Crossing<'t> {
    run: Rc<Alike<'t>>,
    /// The steps made when it was first met.
    steps: u64,
    /// Where it goes on, once it is known.
    ways: Vec<Way>,
}

/// From the start, or from a crossing, to the next crossing or to the end.
#[derive(Clone, Copy)]
struct Way {
    steps: u64,
    /// The crossing's number.
    to: Option<usize>,
}

/// Why a search ends before all states are gone through.
enum Enough {
    Steps,
    Effort,
}

impl<'t> Search<'t> {
    fn new(most_steps: u64, effort: u64) -> Search<'t> {
        Search {
            most_steps,
            effort,
            room: Heights::default(),
            farthest: 0,
            start: None,
            crossings: Vec::new(),
            numbers: HashMap::new(),
            pending: Vec::new(),
        }
    }

    fn go_through(&mut self, routine: &'t Routine) -> Result<(), Enough> {
        self.start = Some(self.follow(FreeRun::start(routine), None, 0)?);
        while let Some(number) = self.pending.pop() {
            let Crossing { run, steps, .. } = &self.crossings[number];
            let (run, steps) = (run.clone(), *steps);
            let truths: &[Option<bool>] = match run.0.next() {
                Next::Test => &[Some(true), Some(false)],
                _ => &[None],
            };
            for truth in truths {
                let way = self.follow(run.0.clone(), *truth, steps)?;
                self.crossings[number].ways.push(way);
            }
        }
        Ok(())
    }

    /// Follow a free run to the next crossing or to its end: from a test's mark with this
    /// truth, else from where it is. It has made so many steps before.
    fn follow(
        &mut self,
        mut run: FreeRun<'t>,
        truth: Option<bool>,
        before: u64,
    ) -> Result<Way, Enough> {
        let effect = &mut Effect::none();
        let mut steps = 0;
        if let Some(truth) = truth {
            run.step_as(truth, effect);
            steps += 1;
        }
        loop {
            self.spend(1)?;
            self.room.raise(run.state.heights());
            self.farthest = self.farthest.max(before + steps);
            if self.farthest > self.most_steps {
                return Err(Enough::Steps);
            }
            let meets_others = run.leaves_a_choice();
            match run.next() {
                Next::End => return Ok(Way { steps, to: None }),
                Next::Step if !meets_others => run.step(effect),
                Next::Step | Next::Test => {
                    let to = Some(self.number(run, before + steps)?);
                    return Ok(Way { steps, to });
                }
            }
            steps += 1;
        }
    }

    /// The number of a crossing, met after so many steps. A new one has its ways to go.
    fn number(&mut self, run: FreeRun<'t>, steps: u64) -> Result<usize, Enough> {
        let run = Rc::new(Alike(run));
        if let Some(number) = self.numbers.get(&run) {
            return Ok(*number);
        }
        let number = self.crossings.len();
        let Heights { values, control, .. } = run.0.state.heights();
        self.spend((values + control) as u64)?;
        self.crossings.push(Crossing { run: run.clone(), steps, ways: Vec::new() });
        self.numbers.insert(run, number);
        self.pending.push(number);
        Ok(number)
    }

    fn figures(&self, steps: Steps) -> Figures {
        Figures { room: self.room, steps }
    }

    fn spend(&mut self, effort: u64) -> Result<(), Enough> {
        self.effort = self.effort.checked_sub(effort).ok_or(Enough::Effort)?;
        Ok(())
    }

    /// The most steps from the start to the end, once all ways are known: without a Loop
    /// none leads back. A crossing's most steps are known when all ways to it are gone.
    fn longest(&self) -> u64 {
        let ways = self.crossings.iter().flat_map(|crossing| &crossing.ways).chain(&self.start);
        let mut missing = vec![0; self.crossings.len()];
        ways.filter_map(|way| way.to).for_each(|to| missing[to] += 1);
        let mut most = vec![0; self.crossings.len()];
        let mut longest = 0;
        let mut to_go: Vec<(u64, Way)> = self.start.iter().map(|way| (0, *way)).collect();
        while let Some((before, way)) = to_go.pop() {
            let steps = before + way.steps;
            let Some(to) = way.to else {
                longest = steps.max(longest);
                continue;
            };
            most[to] = steps.max(most[to]);
            missing[to] -= 1;
            if missing[to] == 0 {
                to_go.extend(self.crossings[to].ways.iter().map(|way| (most[to], *way)));
            }
        }
        longest
    }
}
