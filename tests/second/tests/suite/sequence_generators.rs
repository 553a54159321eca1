//! What the generators make of DSeqs: second declarations that use what the first
//! ones declare, in every form and in runs, and faults that what is seen decides.

use crate::helpers::*;
use second::engine::pass;
use second::execution::Execution;
use second::generate::Family;
use second::kinds::{by_kind, NAMES};
use second::node::Node;
use second::reader::read;
use second::state::{ControlEntry, Mark};
use second::tree::*;
use std::collections::{BTreeMap, BTreeSet};

/// A use of a name that the first declaration of a DSeq gives to the second.
struct Use {
    place: Place,
    form: &'static str,
    /// Whether it stands in a function of the second.
    in_a_function: bool,
}

/// The names in scope, the newest last, each with whether the first declaration of
/// a DSeq around gives it.
type Names = Vec<(Name, bool)>;

/// The uses below a node of names that a DSeq's first declaration gives to its
/// second, and the names that the node declares.
fn uses(node: Node, names: &Names, in_a_function: bool, found: &mut Vec<Use>) -> Vec<Name> {
    let with = |added: Vec<Name>, earlier: bool| -> Names {
        names.iter().copied().chain(added.into_iter().map(|name| (name, earlier))).collect()
    };
    let form = by_kind(node.kind()).name;
    if ["Id", "DeRef", "ValRef", "Assign", "Call"].contains(&form) {
        let name = node.operand() % NAMES;
        let meant = names.iter().rev().find(|(bound, _)| *bound == name);
        if meant.is_some_and(|(_, earlier)| *earlier) {
            found.push(Use { place: node.place(), form, in_a_function });
        }
    }
    match node {
        Node::Blk(blk) => {
            let declared = uses((&blk.declaration).into(), names, in_a_function, found);
            uses((&blk.command).into(), &with(declared, false), in_a_function, found);
            vec![]
        }
        Node::DSeq(dseq) => {
            let first = uses((&dseq.first).into(), names, in_a_function, found);
            let seen = with(first.clone(), true);
            [first, uses((&dseq.second).into(), &seen, in_a_function, found)].concat()
        }
        Node::Abs(abs) => {
            let formals = abs.formals.iter().map(|formal| formal.name).collect();
            uses(Node::Blk(&abs.body), &with(formals, false), true, found)
        }
        Node::Bind(bind) => {
            uses((&bind.bound).into(), names, in_a_function, found);
            vec![bind.name]
        }
        _ => {
            for child in node.children() {
                uses(child, names, in_a_function, found);
            }
            vec![]
        }
    }
}

fn uses_of(routine: &Routine) -> Vec<Use> {
    let mut found = Vec::new();
    if let Some(root) = routine.root.node() {
        let registers = (0..routine.registers).map(|name| (name, false)).collect();
        uses(root, &registers, false, &mut found);
    }
    found
}

/// The forms of use, each outside a function of the second and inside one.
const FORMS: [(&str, bool); 10] = [
    ("Id", false),
    ("DeRef", false),
    ("ValRef", false),
    ("Assign", false),
    ("Call", false),
    ("Id", true),
    ("DeRef", true),
    ("ValRef", true),
    ("Assign", true),
    ("Call", true),
];

/// Commands stand in a function of the second alone.
fn possible((form, inside): (&str, bool)) -> bool {
    inside || !["Assign", "Call"].contains(&form)
}

/// Every form of use comes up often.
#[test]
fn later_declarations_use_earlier_ones_in_every_form() {
    for (family, count) in [(Family::Sequences, 800), (Family::Medium, 600), (Family::Large, 100)] {
        let mut forms: BTreeMap<(&str, bool), u32> = BTreeMap::new();
        for seed in 0..count {
            for found in uses_of(&read(&family.case(seed).image).unwrap()) {
                *forms.entry((found.form, found.in_a_function)).or_default() += 1;
            }
        }
        for form in FORMS {
            let often = forms.get(&form).copied().unwrap_or(0);
            let least = if family == Family::Sequences { 40 } else { 10 };
            assert_eq!(often >= least, possible(form), "{family:?}: {form:?} in {forms:?}");
        }
    }
}

/// Runs come by these uses, both in declarations and in called functions, and by
/// the second marks of DSeqs.
#[test]
fn runs_come_by_what_later_declarations_use() {
    for (family, count) in [(Family::Sequences, 600), (Family::Medium, 600)] {
        let mut met: BTreeMap<(&str, bool), u32> = BTreeMap::new();
        let mut second_marks = 0;
        for seed in 0..count {
            let case = family.case(seed);
            let Ok((routine, _)) = pass(&case.image) else { continue };
            let places: BTreeMap<Place, (&str, bool)> = uses_of(&routine)
                .into_iter()
                .map(|found| (found.place, (found.form, found.in_a_function)))
                .collect();
            Execution::start(&routine, &case.registers, 2_000).finish(|at| {
                match at.state().control.last() {
                    Some(ControlEntry::Node(node)) => {
                        if let Some(form) = places.get(&node.place()) {
                            *met.entry(*form).or_default() += 1;
                        }
                    }
                    Some(ControlEntry::Mark(Mark::DSeqSecond)) => second_marks += 1,
                    _ => {}
                }
            });
        }
        for (form, inside) in FORMS.into_iter().filter(|form| possible(*form)) {
            let often = met.get(&(form, inside)).copied().unwrap_or(0);
            assert!(often >= 10, "{family:?}: {form} in {met:?}");
        }
        assert!(second_marks > 1_000, "{family:?}: {second_marks} second marks");
    }
}

/// Every end of a run without a limit and every refusal of scope and types.
#[test]
fn sequences_end_in_every_way() {
    let mut numbers = BTreeSet::new();
    for seed in 0..2_000 {
        let case = Family::Sequences.case(seed);
        let (reply, _) = run_at(&case.image, &case.registers, case.budget.min(2_000));
        numbers.insert(reply.refusal().map_or(0, |refusal| refusal.number));
    }
    assert_eq!(numbers, BTreeSet::from([0, 10, 11, 12, 13, 14, 30, 31, 32]));
}

/// Faults at a use of an earlier name, which is none where it is not seen, or is
/// another fault; and names used before they are declared, which are 10 either way.
#[test]
fn damage_reaches_faults_that_the_scope_of_a_sequence_decides() {
    for (family, count) in [(Family::Damaged, 6_000), (Family::Sequences, 3_000)] {
        let mut at_a_use = BTreeSet::new();
        let (mut too_early, mut repeated_and_used) = (0, 0);
        for seed in 0..count {
            let image = family.case(seed).image;
            let Some(refusal) = checked(&image).refusal() else { continue };
            let (10..=14, Ok(routine)) = (refusal.number, read(&image)) else { continue };
            let found = uses_of(&routine);
            if found.iter().any(|found| found.place == refusal.place) {
                at_a_use.insert(refusal.number);
            }
            let (node, _) = routine.root.preorder()[refusal.place as usize];
            match (refusal.number, node) {
                (10, node) => too_early += declared_later(&routine, node) as u32,
                (12, Node::DSeq(dseq)) => {
                    let second = Node::from(&dseq.second);
                    let places = second.place()..second.place() + second.preorder().len() as Place;
                    repeated_and_used +=
                        found.iter().any(|found| places.contains(&found.place)) as u32;
                }
                _ => {}
            }
        }
        assert_eq!(at_a_use, BTreeSet::from([11, 13, 14]), "{family:?}");
        assert!(too_early >= 10, "{family:?}: {too_early} names used too early");
        assert!(repeated_and_used >= 5, "{family:?}: {repeated_and_used} repeated behind a use");
    }
}

/// Whether a node stands in the first declaration of a DSeq whose second one binds
/// the node's name.
fn declared_later(routine: &Routine, used: Node) -> bool {
    routine.root.preorder().into_iter().any(|(node, _)| {
        let Node::DSeq(dseq) = node else { return false };
        let first = Node::from(&dseq.first).preorder();
        let in_first = first.iter().any(|(node, _)| node.place() == used.place());
        in_first && binds(&dseq.second).contains(&(used.operand() % NAMES))
    })
}

fn binds(declaration: &Declaration) -> Vec<Name> {
    match declaration {
        Declaration::Bind(bind) => vec![bind.name],
        Declaration::DSeq(dseq) => [binds(&dseq.first), binds(&dseq.second)].concat(),
    }
}
