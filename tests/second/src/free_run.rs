//! A free run: the automaton with no step withheld. What a test comes to is free to fall
//! either way, and where 31 or 32 would withhold a step the result is any integer.

use crate::effect::Effect;
use crate::rules::apply;
use crate::state::{ControlEntry, Mark, State, ValueEntry};
use crate::store::Value;
use crate::tree::Routine;

/// A free run under way.
#[derive(Clone)]
pub struct FreeRun<'t> {
    pub state: State<'t>,
    /// How high control is behind each Cond whose command is under way, the innermost
    /// last.
    pub behind: Vec<usize>,
}

/// What comes next.
#[derive(Clone, Copy, Debug, PartialEq, Eq)]
pub enum Next {
    Step,
    /// The step at the mark of a Loop or a Cond: there are two ways.
    Test,
    /// Nothing: control is empty.
    End,
}

impl<'t> FreeRun<'t> {
    /// The start, with any integers in the registers.
    pub fn start(routine: &'t Routine) -> FreeRun<'t> {
        let state = State::start(routine, &vec![0; routine.registers as usize]);
        FreeRun { state, behind: Vec::new() }
    }

    pub fn next(&self) -> Next {
        match self.state.control.last() {
            Some(ControlEntry::Mark(Mark::Loop | Mark::Cond)) => Next::Test,
            Some(_) => Next::Step,
            None => Next::End,
        }
    }

    /// Make a step that has one way.
    pub fn step(&mut self, effect: &mut Effect<'t>) {
        if apply(&self.state, effect).is_err() {
            // 31 or 32: the two values are used, and any integer is the result.
            effect.push(Value::Integer(0));
        }
        effect.make(&mut self.state);
    }

    /// Make the step at a test's mark as if the test had come to this.
    pub fn step_as(&mut self, truth: bool, effect: &mut Effect<'t>) {
        if let Some(ControlEntry::Mark(Mark::Cond)) = self.state.control.last() {
            self.behind.push(self.state.control.len() - 1);
        }
        *self.state.values.last_mut().expect("a test leaves its truth on V") =
            ValueEntry::Value(Value::Truth(truth));
        self.step(effect);
    }

    /// Whether the last step was the last one of a Cond's command, which is no longer
    /// under way then.
    pub fn leaves_a_choice(&mut self) -> bool {
        let under_way = self.behind.len();
        while self.behind.last() == Some(&self.state.control.len()) {
            self.behind.pop();
        }
        self.behind.len() < under_way
    }
}
