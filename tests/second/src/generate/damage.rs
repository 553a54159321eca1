//! One fault put into an image: each refusal of the image is reached by some of
//! these, at many places. What the answer is, the reader and checker say.

use super::noise::children;
use super::random::Random;
use crate::kinds::{by_number, Kind, MOST_DEPTH, NAMES, TABLE};
use std::ops::Range;

/// An image of the right length, taken apart.
struct Parts {
    registers: u32,
    nodes: Vec<(u32, u32)>,
}

impl Parts {
    fn of(image: &[u32]) -> Parts {
        let (kinds, operands) = image[2..].split_at(image[0] as usize);
        let nodes = kinds.iter().copied().zip(operands.iter().copied()).collect();
        Parts { registers: image[1], nodes }
    }

    fn image(&self) -> Vec<u32> {
        let mut words = vec![self.nodes.len() as u32, self.registers];
        words.extend(self.nodes.iter().map(|(kind, _)| kind));
        words.extend(self.nodes.iter().map(|(_, operand)| operand));
        words
    }

    fn kind(&self, place: usize) -> Kind {
        by_number(self.nodes[place].0).expect("a kind").kind
    }

    /// The places of the nodes of some kinds.
    fn places(&self, wanted: impl Fn(Kind) -> bool) -> Vec<usize> {
        self.places_in(0..self.nodes.len(), wanted)
    }

    /// Those of them among some places.
    fn places_in(&self, places: Range<usize>, wanted: impl Fn(Kind) -> bool) -> Vec<usize> {
        places.filter(|place| wanted(self.kind(*place))).collect()
    }

    /// The place behind the node at this place and all below it.
    fn behind(&self, place: usize) -> usize {
        let (mut next, mut missing) = (place, 1);
        while missing > 0 {
            missing = missing - 1 + children(self.kind(next), self.nodes[next].1).len();
            next += 1;
        }
        next
    }

    /// The places of the Binds that a declaration is made of.
    fn binds(&self, declaration: usize) -> Vec<usize> {
        match self.kind(declaration) {
            Kind::DSeq => {
                let first = declaration + 1;
                [self.binds(first), self.binds(self.behind(first))].concat()
            }
            _ => vec![declaration],
        }
    }

    /// The places among some where a name is used.
    fn uses(&self, places: Range<usize>) -> Vec<usize> {
        use Kind::*;
        self.places_in(places, |kind| matches!(kind, Id | DeRef | ValRef | Assign | Call))
    }

    /// One among some places with a node of some kinds, if there is one.
    fn one_in(
        &self,
        random: &mut Random,
        places: Range<usize>,
        wanted: impl Fn(Kind) -> bool,
    ) -> Option<usize> {
        let found = self.places_in(places, wanted);
        (!found.is_empty()).then(|| *random.pick(&found))
    }

    /// One with a node of this kind, if there is one.
    fn one_of(&self, random: &mut Random, kind: Kind) -> Option<usize> {
        self.one_in(random, 0..self.nodes.len(), |other| other == kind)
    }

    /// One of some nodes takes the name of one of others.
    fn take_a_name(&mut self, random: &mut Random, takers: &[usize], givers: &[usize]) {
        if !takers.is_empty() && !givers.is_empty() {
            let name = self.nodes[*random.pick(givers)].1 % NAMES;
            let operand = &mut self.nodes[*random.pick(takers)].1;
            *operand = *operand / NAMES * NAMES + name;
        }
    }
}

/// A well-shaped image of one node or more with one fault, or one change that may
/// be none.
pub fn damage(random: &mut Random, image: &[u32]) -> Vec<u32> {
    if random.chance(1, 6) {
        return damage_counts(random, image);
    }
    let mut parts = Parts::of(image);
    let all = 0..parts.nodes.len();
    let place = random.below(parts.nodes.len());
    match random.below(18) {
        0 => {
            parts.nodes[place].0 = *random.pick(&[0, 18, 19, 26, 29, 32, 39, 43, 1 << 16, u32::MAX])
        }
        1 => parts.nodes[place].0 = random.pick(&TABLE).number,
        2 => parts.nodes[place].1 = operand_too_great(random, parts.nodes[place].0),
        3 => rename(random, &mut parts, all),
        4 => retype(random, &mut parts, all),
        5 => {
            parts.nodes.remove(place);
        }
        6 => {
            let node = (random.pick(&TABLE).number, random.below(64) as u32);
            let place = if random.chance(1, 2) { parts.nodes.len() } else { place };
            parts.nodes.insert(place, node);
        }
        7 => deepen(random, &mut parts),
        8 => parts.registers = random.below(17) as u32,
        9 | 10 => repeat_a_name(random, &mut parts),
        11 => change_a_call(random, &mut parts, all),
        12 | 13 => change_a_sequence(random, &mut parts),
        14 => set_another_name(random, &mut parts, all),
        15 | 16 => change_a_choice(random, &mut parts),
        _ => swap_kinds(random, &mut parts),
    }
    parts.image()
}

/// Faults of the first two words and of the length.
fn damage_counts(random: &mut Random, image: &[u32]) -> Vec<u32> {
    let mut words = image.to_vec();
    match random.below(6) {
        0 => words.truncate(random.below(image.len())),
        1 => words.extend(vec![0; random.between(1, 3)]),
        2 => words[0] = *random.pick(&[2_001, 2_002, u32::MAX, 1 << 31]),
        3 => words[1] = *random.pick(&[17, 18, 64, u32::MAX]),
        4 => {
            // No node, with all words left behind r, with one of them, or with none.
            words[0] = 0;
            words.truncate(*random.pick(&[2, 2, 3, image.len()]));
        }
        _ => words[0] = random.between(1, 2_000) as u32,
    }
    words
}

fn operand_too_great(random: &mut Random, kind: u32) -> u32 {
    let greatest = by_number(kind).expect("a kind").greatest_operand;
    let above = *random.pick(&[1, 2, 64, 1 << 20, u32::MAX]);
    greatest.saturating_add(above)
}

/// Another name where a name stands, among some places.
fn rename(random: &mut Random, parts: &mut Parts, places: Range<usize>) {
    use Kind::*;
    let commands = random.chance(1, 2);
    let named = parts.places_in(places, |kind| match kind {
        Assign | Call | Bind => true,
        Id | DeRef | ValRef | Formal => !commands,
        _ => false,
    });
    if !named.is_empty() {
        // Half of the time the name of some other node, else any.
        let other = parts.nodes[*random.pick(&named)].1 % NAMES;
        let any = random.below(NAMES as usize) as u32;
        let name = if random.chance(1, 2) { other } else { any };
        let operand = &mut parts.nodes[*random.pick(&named)].1;
        *operand = *operand / NAMES * NAMES + name;
    }
}

/// An expression of another code: a leaf, or a Formal's code, among some places.
fn retype(random: &mut Random, parts: &mut Parts, places: Range<usize>) {
    use Kind::*;
    let is_leaf = |kind| matches!(kind, Num | Boo | Id | DeRef | ValRef | Formal);
    let Some(place) = parts.one_in(random, places, is_leaf) else { return };
    let (kind, operand) = &mut parts.nodes[place];
    if by_number(*kind).expect("a kind").kind == Formal {
        *operand = *operand % NAMES + NAMES * random.below(8) as u32;
    } else {
        *kind = *random.pick(&[1, 2, 3, 16, 17]);
        *operand = random.below(2) as u32;
    }
}

/// Nots above some expression, until a node is too deep or nearly so.
fn deepen(random: &mut Random, parts: &mut Parts) {
    let expressions = parts.places(|kind| matches!(kind, Kind::Num | Kind::Boo | Kind::Id));
    if !expressions.is_empty() {
        let place = *random.pick(&expressions);
        let levels = random.between(MOST_DEPTH as usize - 15, MOST_DEPTH as usize + 2);
        parts.nodes.splice(place..place, vec![(15, 0); levels]);
    }
}

/// One Bind or Formal takes the name of another.
fn repeat_a_name(random: &mut Random, parts: &mut Parts) {
    let wanted = *random.pick(&[Kind::Bind, Kind::Formal]);
    let named = parts.places(|kind| kind == wanted);
    parts.take_a_name(random, &named, &named);
}

/// The same image with another name in one of its DSeqs.
pub fn change_a_sequence_of(random: &mut Random, image: &[u32]) -> Vec<u32> {
    let mut parts = Parts::of(image);
    change_a_sequence(random, &mut parts);
    parts.image()
}

/// A name between the two declarations of a DSeq: what the second one sees of the
/// first decides whether that is a fault.
fn change_a_sequence(random: &mut Random, parts: &mut Parts) {
    let Some(place) = parts.one_of(random, Kind::DSeq) else { return };
    let first = place + 1;
    let second = parts.behind(first);
    let end = parts.behind(second);
    let (firsts_binds, seconds_binds) = (parts.binds(first), parts.binds(second));
    let (firsts_uses, seconds_uses) = (parts.uses(first..second), parts.uses(second..end));
    match random.below(5) {
        // The first declares a name that the second uses, and hides what it meant there.
        0 => parts.take_a_name(random, &firsts_binds, &seconds_uses),
        // The second uses what the first declares, in a form that may not fit.
        1 => parts.take_a_name(random, &seconds_uses, &firsts_binds),
        // A function of the second sets what the first declares, or calls it.
        2 => {
            let commands = |kind| matches!(kind, Kind::Assign | Kind::Call);
            let takers = parts.places_in(second..end, commands);
            parts.take_a_name(random, &takers, &firsts_binds);
        }
        // The first uses what the second declares.
        3 => parts.take_a_name(random, &firsts_uses, &seconds_binds),
        // They change places: what the second saw is behind it.
        _ => parts.nodes[first..end].rotate_left(second - first),
    }
}

/// The same image with a change in one of its Conds.
pub fn change_a_choice_of(random: &mut Random, image: &[u32]) -> Vec<u32> {
    let mut parts = Parts::of(image);
    change_a_choice(random, &mut parts);
    parts.image()
}

/// A change of a Cond: of its test, in its first or its second command, of their order,
/// or of the node itself. A fault in a command is one whether it is taken or not.
fn change_a_choice(random: &mut Random, parts: &mut Parts) {
    let Some(place) = parts.one_of(random, Kind::Cond) else { return };
    let test = place + 1;
    let first = parts.behind(test);
    let second = parts.behind(first);
    let end = parts.behind(second);
    let command = if random.chance(1, 2) { first..second } else { second..end };
    match random.below(10) {
        // A test of code 0, or of code 2 if there is a register.
        0 | 1 => {
            let leaf = *random.pick(&[(1, 1), (16, 0)]);
            parts.nodes.splice(test..first, [leaf]);
        }
        2 => rename(random, parts, command),
        3 => retype(random, parts, command),
        4 => set_another_name(random, parts, command),
        5 => change_a_call(random, parts, command),
        // The second command uses what the first declares.
        6 => {
            let binds = parts.places_in(first..second, |kind| kind == Kind::Bind);
            let uses = parts.uses(second..end);
            parts.take_a_name(random, &uses, &binds);
        }
        // Two children change places.
        7 => match random.below(2) {
            0 => parts.nodes[test..second].rotate_left(first - test),
            _ => parts.nodes[first..end].rotate_left(second - first),
        },
        // A child is missing.
        8 => {
            let child = random.pick(&[test..first, first..second, second..end]).clone();
            parts.nodes.drain(child);
        }
        _ => parts.nodes[place].1 = operand_too_great(random, parts.nodes[place].0),
    }
}

/// The same image with a change at one of its Calls.
pub fn change_a_function_of(random: &mut Random, image: &[u32]) -> Vec<u32> {
    let mut parts = Parts::of(image);
    change_a_function(random, &mut parts);
    parts.image()
}

/// Another function is called, or what a Call names is hidden by another Bind or Formal.
fn change_a_function(random: &mut Random, parts: &mut Parts) {
    let calls = parts.places(|kind| kind == Kind::Call);
    let binds = parts.places(|kind| kind == Kind::Bind);
    let formals = parts.places(|kind| kind == Kind::Formal);
    match random.below(4) {
        0 => parts.take_a_name(random, &calls, &calls),
        1 => parts.take_a_name(random, &binds, &calls),
        2 => parts.take_a_name(random, &formals, &calls),
        _ => change_a_call(random, parts, 0..parts.nodes.len()),
    }
}

/// An Assign among some places takes a name that a Bind or a Formal has: one that may
/// not be set.
fn set_another_name(random: &mut Random, parts: &mut Parts, places: Range<usize>) {
    let assigns = parts.places_in(places, |kind| kind == Kind::Assign);
    let named = parts.places(|kind| matches!(kind, Kind::Bind | Kind::Formal));
    parts.take_a_name(random, &assigns, &named);
}

/// One actual more or less, or a Call of something else, among some places.
fn change_a_call(random: &mut Random, parts: &mut Parts, places: Range<usize>) {
    let is_call = |kind| kind == Kind::Call;
    let Some(place) = parts.one_in(random, places, is_call) else { return };
    let operand = parts.nodes[place].1;
    match random.below(3) {
        0 if operand / NAMES < 8 => {
            parts.nodes[place].1 += NAMES;
            parts.nodes.insert(place + 1, (1, 0));
        }
        1 if operand / NAMES > 0 => parts.nodes[place].1 -= NAMES,
        _ => {
            let name = random.below(NAMES as usize) as u32;
            parts.nodes[place].1 = operand / NAMES * NAMES + name;
        }
    }
}

/// One operator for another: the shape holds and the types may not.
fn swap_kinds(random: &mut Random, parts: &mut Parts) {
    let operators = parts.places(|kind| matches!(kind, Kind::Binary(_)));
    if !operators.is_empty() {
        let place = *random.pick(&operators);
        parts.nodes[place].0 = random.between(4, 14) as u32;
    }
}
