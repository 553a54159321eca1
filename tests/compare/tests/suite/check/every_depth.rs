//! Every kind of node with right and wrong operands, at each sort of place, from
//! depth 1 to 66: missing, kind, sort, operand and depth are judged in this order.

use crate::helpers::agreed;
use second::generate::random::Random;
use second::kinds::TABLE;

type Nodes = Vec<(u32, u32)>;

const NUM: (u32, u32) = (1, 0);
const SUM: (u32, u32) = (4, 0);
const NOT: (u32, u32) = (15, 0);
const ASSIGN: (u32, u32) = (20, 0);
const LOOP: (u32, u32) = (21, 0);
const CSEQ: (u32, u32) = (22, 0);
const BLK: (u32, u32) = (23, 0);
const COND: (u32, u32) = (25, 0);
const BIND: (u32, u32) = (30, 0);
const DSEQ: (u32, u32) = (31, 0);
const REF: (u32, u32) = (40, 0);

/// The nodes before a place at this depth, for each sort of place: as many of the
/// first as it takes, those right above the place, then those before it.
fn before(depth: usize) -> Vec<Nodes> {
    let abs = |count: u32| (41, count);
    let call = |count: u32| (24, 64 * count);
    let formal = |name: u32| (42, name);
    let ways: [((u32, u32), Nodes, Nodes); 19] = [
        (NOT, vec![], vec![]),
        (NOT, vec![SUM], vec![NUM]),
        (CSEQ, vec![], vec![]),
        (CSEQ, vec![CSEQ], vec![ASSIGN, NUM]),
        (CSEQ, vec![LOOP], vec![NUM]),
        (CSEQ, vec![COND], vec![]),
        (CSEQ, vec![COND], vec![NUM]),
        (CSEQ, vec![COND], vec![NUM, ASSIGN, NUM]),
        (CSEQ, vec![COND, BLK], vec![]),
        (CSEQ, vec![call(8)], vec![]),
        (CSEQ, vec![BLK], vec![]),
        (CSEQ, vec![BLK], vec![BIND, NUM]),
        (CSEQ, vec![BLK, DSEQ], vec![]),
        (CSEQ, vec![BLK, DSEQ], vec![BIND, NUM]),
        (CSEQ, vec![BLK, BIND], vec![]),
        (CSEQ, vec![BLK, BIND, REF], vec![]),
        (CSEQ, vec![BLK, BIND, abs(0)], vec![]),
        (CSEQ, vec![BLK, BIND, abs(3)], vec![formal(1), formal(2)]),
        (CSEQ, vec![BLK, BIND, abs(0), BLK], vec![]),
    ];
    let reaches = |(first, above, beside): ((u32, u32), Nodes, Nodes)| {
        let count = (depth - 1).checked_sub(above.len())?;
        Some([vec![first; count], above, beside].concat())
    };
    ways.into_iter().filter_map(reaches).collect()
}

fn image(nodes: &[(u32, u32)]) -> Vec<u32> {
    let mut words = vec![nodes.len() as u32, 1];
    words.extend(nodes.iter().map(|(kind, _)| kind));
    words.extend(nodes.iter().map(|(_, operand)| operand));
    words
}

#[test]
fn of_every_kind() {
    let random = &mut Random::new(1);
    for depth in [1, 2, 3, 4, 5, 62, 63, 64, 65, 66] {
        for before in before(depth) {
            agreed(&image(&before), random);
            let kinds = TABLE.iter().map(|row| (row.number, row.greatest_operand));
            for (kind, greatest) in kinds.chain([(0, 0), (18, 0), (43, 0), (u32::MAX, 0)]) {
                for operand in [0, greatest, greatest.wrapping_add(1), u32::MAX] {
                    let mut nodes = before.clone();
                    nodes.push((kind, operand));
                    agreed(&image(&nodes), random);
                    // One more behind it: a child, a sibling or one left over.
                    nodes.push(NUM);
                    agreed(&image(&nodes), random);
                }
            }
        }
    }
}
