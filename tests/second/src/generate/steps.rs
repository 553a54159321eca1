//! Commands of exactly so many steps.

use crate::build::*;
use crate::tree::*;

/// How many functions call one another.
const FUNCTIONS: Name = 15;

/// A command of exactly so many steps, 111 at least, which leaves register 0 at 1: within
/// functions each of which calls the one before it twice as many Calls as go in, the longest
/// first, and Assigns for the rest.
pub fn of_steps(steps: u64) -> Command {
    let set = || assign(0, num(1));
    let once = |name: Name| call(name, vec![]);
    // A function's Blk binds a name that no one uses: 6 steps more than its command.
    let function = |name: Name, command| bind_abs(name, &[], block(bind(63, num(0)), command));
    let doubling = |name: Name| match name {
        1 => function(1, set()),
        _ => function(name, cseq(once(name - 1), once(name - 1))),
    };
    let mut left = steps - 6 * u64::from(FUNCTIONS) - 3;
    let mut all = vec![set()];
    // Each command behind the first takes a CSeq more.
    for name in (1..=FUNCTIONS).rev() {
        while left >= steps_of_call(name) + 1 + 3 * 7 {
            left -= steps_of_call(name) + 1;
            all.push(once(name));
        }
    }
    while left > 0 {
        let longer = !left.is_multiple_of(4);
        left -= if longer { 7 } else { 4 };
        all.push(if longer { assign(0, sum(num(1), num(0))) } else { set() });
    }
    // Each Blk around has 6 steps more than its command.
    (1..=FUNCTIONS).rev().fold(commands(all), |command, name| blk(doubling(name), command))
}

/// The steps of a Call of the function of this name: a Call has 3 more than its function's Blk,
/// which is 9 for function 1 and twice the Call before it, and 7, for others.
fn steps_of_call(name: Name) -> u64 {
    (22 << (name - 1)) - 10
}
