//! Where a node's descendants end, which says where the next child stands: at every node of
//! the longest image, and, for each kind with a child behind another, where an end fills 8, 9
//! or 10 bits and just beyond. An engine that keeps an end in too few bits, or lets it meet
//! the kind or the operand, finds the next child elsewhere.

use crate::helpers::{agreed, agreed_run, refused, with_starts};
use compare::engine::{self, PageReply};
use compare::page::LINE;
use compare::{needs, page};
use second::build::*;
use second::engine::{Answer, Outcome, WORK_WORDS};
use second::generate::limits::with_nodes;
use second::generate::random::Random;
use second::kinds::MOST_NODES;
use second::tree::{Command, Expression, Name, Root};

/// The nodes around which an end has one bit more.
const NOTABLE: [usize; 9] = [255, 256, 257, 511, 512, 513, 1_023, 1_024, 1_025];
/// The longest image.
const LONGEST: usize = MOST_NODES as usize;
/// The kind of a name's node, and a name that nothing binds.
const ID: u32 = 3;
const UNBOUND: Name = 62;
const FUNCTION: Name = 63;

/// Assigns to register 0 of exactly so many nodes, at least 8.
fn straight(nodes: usize) -> Command {
    match with_nodes(nodes).root {
        Root::Command(command) => command,
        _ => unreachable!("Assigns under CSeqs"),
    }
}

/// The value of a name, by exactly so many nodes, an odd number of them: Sums with 0.
fn value(name: Name, nodes: usize) -> Expression {
    let leaves = nodes / 2 + 1;
    let leaf = |leaf| if leaf == leaves / 2 { id(name) } else { num(0) };
    summed((0..leaves).map(leaf).collect())
}

fn summed(mut all: Vec<Expression>) -> Expression {
    if all.len() == 1 {
        return all.remove(0);
    }
    let second = all.split_off(all.len() / 2);
    sum(summed(all), summed(second))
}

/// Each kind whose next child stands behind a large part of so many nodes, an odd number of
/// them. What stands behind that part has this expression in it, which tells whether it was
/// found.
fn shapes(nodes: usize, behind: &Expression) -> Vec<Command> {
    let large = || value(1, nodes);
    let behind = || behind.clone();
    let is_above = |left| gt(left, num(0));
    let with = |name| assign(0, sum(id(name), behind()));
    let counted = cseq(assign(1, sub(id(1), num(1))), assign(0, behind()));
    let function = |body| bind_abs(FUNCTION, &[(5, 0)], body);
    let a_cell = || block(bind_ref(6, id(5)), assign(0, id(6)));
    let calls = || call(FUNCTION, vec![num(3)]);
    let mut all = vec![
        cseq(straight(nodes), assign(0, behind())),
        assign(0, sum(large(), behind())),
        assign(0, sub(sub(large(), num(3)), behind())),
        repeat(is_above(large()), counted),
        cond(is_above(large()), assign(0, behind()), assign(0, num(2))),
        cond(is_above(large()), assign(0, num(1)), assign(0, behind())),
        cond(is_above(id(1)), straight(nodes), assign(0, behind())),
        blk(bind(5, large()), with(5)),
        blk(bind_ref(5, large()), with(5)),
        blk(dseq(bind(5, large()), bind_ref(6, behind())), assign(0, sum(id(5), id(6)))),
        blk(dseq(bind(5, large()), function(a_cell())), call(FUNCTION, vec![behind()])),
        blk(function(block(bind(4, large()), with(4))), calls()),
        blk(function(block(bind(4, id(5)), straight(nodes))), cseq(calls(), assign(0, behind()))),
    ];
    // Actuals, the large one at each place but the last.
    for count in 2..=4 {
        for place in 0..count - 1 {
            let formals: Vec<(Name, u32)> = (0..count).map(|formal| (10 + formal, 0)).collect();
            let gathers =
                (10..10 + count).fold(num(0), |sums, formal| sum(mul(sums, num(3)), id(formal)));
            let actual = |actual| match actual {
                _ if actual == place => large(),
                _ if actual == count - 1 => behind(),
                _ => num(actual),
            };
            all.push(blk(
                bind_abs(FUNCTION, &formals, block(bind(4, gathers), assign(0, id(4)))),
                call(FUNCTION, (0..count).map(actual).collect()),
            ));
        }
    }
    all
}

/// A shape whose large part of so many nodes is to end at this node, or at the last that it
/// can; before it stand as many other commands as it takes.
fn ending_at(end: Option<usize>, command: Command, nodes: usize) -> Vec<u32> {
    let listed = Root::Command(command.clone());
    let sizes = listed.preorder();
    let is_large = |place: &usize| sizes[*place].0.preorder().len() == nodes;
    let reach = (0..sizes.len()).find(is_large).expect("the large part") + nodes;
    let end = end.unwrap_or(LONGEST - (sizes.len() - reach));
    image(2, cseq(straight(end - 1 - reach), command))
}

/// Each shape with its large part at the ends that fit its size.
fn each_shape(behind: &Expression, mut tried: impl FnMut(Vec<u32>)) {
    for (nodes, ends) in [(101, &NOTABLE[..]), (201, &NOTABLE[1..]), (901, &NOTABLE[6..])] {
        for command in shapes(nodes, behind) {
            for end in ends {
                tried(ending_at(Some(*end), command.clone(), nodes));
            }
            let longest = ending_at(None, command, nodes);
            assert_eq!(longest[0], MOST_NODES);
            tried(longest);
        }
    }
}

#[test]
fn each_kind_where_an_end_has_a_bit_more() {
    let random = &mut Random::new(1);
    each_shape(&num(u32::MAX), |image| {
        assert_eq!(agreed(&image, random), Answer::Command);
        needs::compare(&image, WORK_WORDS, random)
            .unwrap_or_else(|difference| panic!("{difference}"));
        page::compare(&image, &vec![0; LINE * image[0] as usize], WORK_WORDS, random)
            .unwrap_or_else(|difference| panic!("{difference}"));
        for starts in [[5, 3], [5, 0]] {
            let ran = agreed_run(&with_starts(image.clone(), &starts), random);
            assert_eq!(ran.reply.outcome, Outcome::None);
        }
    });
}

/// The only fault is a name behind the large part: who looks elsewhere finds none.
#[test]
fn a_fault_behind_an_end() {
    let random = &mut Random::new(2);
    each_shape(&id(UNBOUND), |image| {
        let (kinds, operands) = image[2..].split_at(image[0] as usize);
        let mut nodes = kinds.iter().zip(operands);
        let place = nodes.position(|node| node == (&ID, &UNBOUND)).expect("the name");
        assert_eq!(agreed(&image, random), refused(10, place as u32));
    });
}

/// The first command of a CSeq ends at each node in turn. The page, which prints ends, is
/// asked of nobody.
#[test]
fn at_every_node() {
    let random = &mut Random::new(3);
    let (mut work, mut lent) = (vec![0; WORK_WORDS], vec![0; LINE * LONGEST]);
    for end in 9..=LONGEST - 2 {
        let image = image(1, cseq(straight(end - 1), assign(0, num(u32::MAX))));
        assert_eq!(agreed(&image, random), Answer::Command, "{end}");
        let reply = engine::page(&image, &mut lent, &mut work);
        assert_eq!(reply, PageReply { refusal: 0, place: 0 });
        let line = |node: usize| &lent[LINE * node..LINE * (node + 1)];
        let nodes = end + 2;
        let ends = |text: &[u8], end: usize| text.ends_with(format!(" {end:>4}\n").as_bytes());
        assert!(ends(line(0), nodes) && ends(line(1), end) && ends(line(end), nodes), "{end}");
    }
}
