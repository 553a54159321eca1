//! What the generators divide: every combination of signs, exact and not, by 1, by −1 and by
//! 0, and at both ends of the integers.

use crate::helpers::*;
use second::engine::pass;
use second::execution::Execution;
use second::generate::Family;
use second::state::{ControlEntry, Mark, ValueEntry};
use second::store::Value;
use second::tree::Operator;
use std::collections::BTreeMap;

/// The dividend and the divisor of each Div that a case comes to, in a run of at most 2,000
/// steps.
fn divided(family: Family, seed: u64) -> Vec<(i64, i64)> {
    let case = family.case(seed);
    let Ok((routine, _)) = pass(&case.image) else { return Vec::new() };
    let mut pairs = Vec::new();
    Execution::start(&routine, &case.registers, 2_000).finish(|at| {
        let state = at.state();
        if let (
            Some(ControlEntry::Mark(Mark::Binary(Operator::Div))),
            [.., ValueEntry::Value(Value::Integer(left)), ValueEntry::Value(Value::Integer(right))],
        ) = (state.control.last(), state.values.as_slice())
        {
            pairs.push((*left, *right));
        }
    });
    pairs
}

/// The signs of a pair, and whether its quotient is exact.
fn sort((left, right): (i64, i64)) -> (i64, i64, bool) {
    let exact = right == 0 || i128::from(left) % i128::from(right) == 0;
    (left.signum(), right.signum(), exact)
}

#[test]
fn divisions_have_all_signs_and_ends() {
    let mut sorts: BTreeMap<(i64, i64, bool), u32> = BTreeMap::new();
    let mut notable: BTreeMap<&str, u32> = BTreeMap::new();
    for seed in 0..3_000 {
        for pair in divided(Family::Divisions, seed) {
            *sorts.entry(sort(pair)).or_default() += 1;
            let (left, right) = pair;
            let tests = [
                ("by 1", right == 1),
                ("by -1", right == -1),
                ("the lowest", left == i64::MIN),
                ("the greatest", left == i64::MAX),
                ("by the lowest", right == i64::MIN),
                ("by the greatest", right == i64::MAX),
                ("the lowest by -1", pair == (i64::MIN, -1)),
                ("past 32 bits", left.unsigned_abs() >> 32 != 0 && right.unsigned_abs() > 1),
                ("both past 32 bits", (left.unsigned_abs().min(right.unsigned_abs())) >> 32 != 0),
            ];
            for (what, _) in tests.into_iter().filter(|(_, met)| *met) {
                *notable.entry(what).or_default() += 1;
            }
        }
    }
    for left in [-1, 1] {
        for (right, exact) in [(-1, true), (-1, false), (1, true), (1, false), (0, true)] {
            let times = sorts.get(&(left, right, exact)).copied().unwrap_or(0);
            assert!(times >= 100, "{left} by {right}, exact {exact}: {sorts:?}");
        }
    }
    assert_eq!(notable.len(), 9);
    assert!(notable.values().all(|times| *times >= 10), "{notable:?}");
}

/// Well-typed trees divide with all signs too, and a quotient that is not exact and below 0
/// comes up in many.
#[test]
fn well_typed_trees_round_below_zero() {
    for (family, count, least) in
        [(Family::Small, 3_000, 60), (Family::Medium, 400, 40), (Family::Large, 100, 10)]
    {
        let mut rounded = [0, 0];
        for seed in 0..count {
            let pairs = divided(family, seed);
            let any = |signs| pairs.iter().any(|pair| sort(*pair) == signs);
            rounded[0] += u32::from(any((-1, 1, false)));
            rounded[1] += u32::from(any((1, -1, false)));
        }
        assert!(rounded.iter().all(|times| *times >= least), "{family:?}: {rounded:?}");
    }
}

/// Most runs end, or are cut off or refused for what they divide.
#[test]
fn divisions_end_in_every_way() {
    let mut often: BTreeMap<u32, u32> = BTreeMap::new();
    for seed in 0..2_000 {
        let case = Family::Divisions.case(seed);
        assert_eq!(checked(&case.image).refusal(), None, "{seed}");
        let (reply, _) = run_at(&case.image, &case.registers, case.budget.min(2_000));
        *often.entry(reply.refusal().map_or(0, |refusal| refusal.number)).or_default() += 1;
    }
    assert_eq!(often.keys().copied().collect::<Vec<_>>(), [0, 30, 31, 32]);
    assert!(often[&0] >= 800 && often.values().all(|times| *times >= 50), "{often:?}");
}
