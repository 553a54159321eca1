//! An image as a tree, one node a line with its number, indented by its depth.
//! What is wrong stands behind `<-` at its node, with the refusal's number and
//! name, and the tree goes on as far as it can be made out.

use crate::parse::{fixed_children, wanted_name};
use crate::stored::split;
use second::bytes::words;
use second::engine::{check, Answer, WORK_WORDS};
use second::kinds::{by_number, Kind, Row, Wanted, MOST_COUNT, MOST_DEPTH, MOST_NODES};
use second::kinds::{MOST_REGISTERS, NAMES};
use second::program::print_answer;
use second::reader::Counts;
use second::refusal::{self, Refusal, COUNTS, DEPTH, KIND, LENGTH, OPERAND, TREE, UNBOUND};
use second::show::NO_ROUTINE;

/// The tree in these bytes: an image, or an image with its starting values. The
/// last line is the checker's answer; where that is a refusal, a line with its name
/// and what it says follows.
pub fn show(bytes: &[u8]) -> String {
    let all = words(bytes);
    let [nodes, registers, ..] = *all else {
        let mark = mark(LENGTH, "no image has fewer than 8");
        let answer = Answer::Refused(Refusal::whole(LENGTH));
        return format!("{} bytes{mark}\n{}", bytes.len(), answer_lines(answer));
    };
    let mut text = format!("nodes {nodes}, registers {registers}");
    let counts = Counts::judge(nodes, registers);
    let answer = match split(bytes) {
        Ok((image, values)) => {
            for (index, value) in values.iter().enumerate() {
                text += &format!("\nregister {index} starts at {value}");
            }
            check(&image, WORK_WORDS)
        }
        Err(refusal) => {
            text += &match counts {
                Ok(counts) => mark(LENGTH, &length_fault(counts, bytes.len())),
                Err(_) => {
                    let counts = format!("nodes are 0 to {MOST_NODES}");
                    mark(COUNTS, &format!("{counts}, registers 0 to {MOST_REGISTERS}"))
                }
            };
            Answer::Refused(refusal)
        }
    };
    text.push('\n');
    // Where the counts say nothing, the words that are there are halved.
    let listed = &all[2..];
    let count = if counts.is_ok() { nodes as usize } else { listed.len() / 2 };
    let (kinds, operands) = listed.split_at(count.min(listed.len()));
    if nodes == 0 && kinds.is_empty() {
        return text + NO_ROUTINE + &answer_lines(answer);
    }
    let shown = kinds.len().min(MOST_NODES as usize);
    let mut walk = Walk {
        kinds: &kinds[..shown],
        operands,
        unshown: kinds.len() - shown,
        judged: answer.refusal().filter(|refusal| refusal.number >= UNBOUND),
        next: 0,
        text,
    };
    walk.whole();
    walk.text + &answer_lines(answer)
}

/// The answer's line and, for a refusal, what it says.
fn answer_lines(answer: Answer) -> String {
    let said = answer.refusal().map(|refusal| refusal::line(refusal.number) + "\n");
    print_answer(answer) + &said.unwrap_or_default()
}

/// What is wrong, behind what it is about.
fn mark(number: u32, what: &str) -> String {
    format!(" <- {}: {what}", refusal::title(number))
}

/// How many bytes these counts take, and how many there are.
fn length_fault(counts: Counts, length: usize) -> String {
    let image = 4 * counts.words();
    let values = match counts.registers {
        0 => String::new(),
        registers => format!(", or {} with starting values", image + 8 * registers as usize),
    };
    format!("these take {image} bytes{values}, and there are {length}")
}

/// A walk over nodes that may have faults.
struct Walk<'w> {
    kinds: &'w [u32],
    /// The operands of the first nodes; those of the last may be missing.
    operands: &'w [u32],
    /// How many nodes follow that are not shown, where there are more than any
    /// image has.
    unshown: usize,
    /// What the checker refuses, if the shape holds.
    judged: Option<Refusal>,
    next: usize,
    text: String,
}

impl Walk<'_> {
    /// The tree, and then what is left over.
    fn whole(&mut self) {
        self.node(Some(Wanted::Root), 1);
        while self.next < self.kinds.len() {
            self.text += &format!("left over{}\n", mark(TREE, "the tree has ended"));
            self.node(None, 1);
        }
        if self.unshown > 0 {
            self.text += &format!("further nodes, not shown: {}\n", self.unshown);
        }
    }

    /// The next node and all below it. Left-over nodes may be of any sort.
    fn node(&mut self, wanted: Option<Wanted>, depth: usize) {
        let indent = "  ".repeat(depth - 1);
        let must_stand = |wanted| format!("{} must stand here", wanted_name(wanted));
        if self.next == self.kinds.len() {
            if self.unshown == 0 {
                let what = wanted.map_or("a node must stand here".to_string(), must_stand);
                self.text += &format!("   - {indent}missing{}\n", mark(TREE, &what));
            }
            return;
        }
        let place = self.next;
        self.next += 1;
        let kind = self.kinds[place];
        let operand = self.operands.get(place).copied();
        self.text += &format!("{place:>4} {indent}");
        let Some(row) = by_number(kind) else {
            let said = operand.map_or("?".to_string(), |operand| operand.to_string());
            let mark = mark(KIND, "no such kind");
            self.text += &format!("kind {kind} operand {said}{mark}\n");
            return;
        };
        self.text += &label(row, operand);
        if let Some(wanted) = wanted.filter(|wanted| !wanted.admits(row)) {
            self.text += &mark(TREE, &must_stand(wanted));
        }
        match operand {
            None => self.text += &mark(LENGTH, "its operand is missing"),
            Some(operand) if operand > row.greatest_operand => {
                self.text += &mark(OPERAND, &format!("the operand is {operand}"));
            }
            _ => {}
        }
        if depth == MOST_DEPTH as usize + 1 {
            self.text += &mark(DEPTH, &format!("depth {depth}"));
        }
        if let Some(judged) = self.judged.filter(|judged| judged.place as usize == place) {
            self.text += &format!(" <- {}", refusal::line(judged.number));
        }
        self.text.push('\n');
        for child in children(row.kind, operand.unwrap_or(0)) {
            self.node(Some(child), depth + 1);
        }
    }
}

/// What must stand below a node of this kind and operand.
fn children(kind: Kind, operand: u32) -> Vec<Wanted> {
    let most = MOST_COUNT as usize;
    match kind {
        Kind::Call => vec![Wanted::Expression; most.min((operand / NAMES) as usize)],
        Kind::Abs => {
            let mut children = vec![Wanted::Formal; most.min(operand as usize)];
            children.push(Wanted::Blk);
            children
        }
        _ => fixed_children(kind).to_vec(),
    }
}

/// The kind's name and what its operand says.
fn label(row: &Row, operand: Option<u32>) -> String {
    let kind = row.name;
    let Some(operand) = operand else {
        return format!("{kind} ?");
    };
    match row.kind {
        Kind::Num | Kind::Boo | Kind::Id | Kind::DeRef | Kind::ValRef => {
            format!("{kind} {operand}")
        }
        Kind::Assign | Kind::Bind => format!("{kind} {operand}"),
        Kind::Call => format!("{kind} {} of {} actuals", operand % NAMES, operand / NAMES),
        Kind::Abs => format!("{kind} of {operand} Formals"),
        Kind::Formal => format!("{kind} {} of code {}", operand % NAMES, operand / NAMES),
        Kind::Binary(_) | Kind::Not | Kind::Loop | Kind::CSeq => kind.to_string(),
        Kind::Blk | Kind::Cond | Kind::DSeq | Kind::Ref => kind.to_string(),
    }
}
