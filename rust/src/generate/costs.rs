//! Costs for the nodes of a file, and a penalty for a miss.

use super::graphs::steps;
use crate::case::{Draft, Lists, LoopRecord, LARGEST_TIME};
use crate::machine::NONE;
use crate::random::Random;

/// "a 32-bit cost for each node": of one kind, or of several, 0 and 4,294,967,295 among them.
pub fn costs(random: &mut Random, nodes: usize) -> Vec<u32> {
    let kind = random.below(6);
    (0..nodes).map(|_| cost(random, kind)).collect()
}

fn cost(random: &mut Random, kind: usize) -> u32 {
    let (small, any) = (random.within(1..=40) as u32, random.draw() as u32);
    match kind {
        0 | 1 => small,
        2 => any,
        3 => u32::MAX,
        4 => random.pick(&[0, 0, 0, small, any]),
        _ => random.pick(&[0, 1, small, small, any, u32::MAX - 1, u32::MAX]),
    }
}

/// "a 32-bit penalty for each miss"
pub fn penalty(random: &mut Random) -> u32 {
    let (small, any) = (random.within(1..=40) as u32, random.draw() as u32);
    random.pick(&[0, 0, 1, small, small, any, any, u32::MAX])
}

/// How many costs are handed: as many as nodes, or seldom too few or too many.
pub fn how_many(random: &mut Random, nodes: usize) -> usize {
    if random.chance(92) {
        return nodes;
    }
    random.pick(&[nodes.saturating_sub(1), nodes + 1, 0, nodes / 2, 2 * nodes, nodes + 100])
}

/// A file without facts, costs, and a penalty: the time is just so much more than the largest that is told. Node 0, which
/// fetches, is visited once; behind it is a loop within a loop, none of whose nodes fetches.
pub fn brink(random: &mut Random, more: i64) -> (Draft, Vec<u32>, u32) {
    const LAST: u16 = 4;
    let bounds = [(); 2].map(|_| random.within(32_768..=46_340));
    let rounds = (bounds[0] * bounds[1]) as u128;
    let due = LARGEST_TIME.checked_add_signed(more.into()).expect("both have 64 bits");
    let a_round = (due - random.below(1 << 31) as u128) / rounds;
    let once = due - a_round * rounds;
    let (third, part) = (a_round / 3, random.below(once as usize + 1) as u128);
    let penalty = random.pick(&[0, part, once]);
    let costs = [once - penalty, 0, third, third, a_round - 2 * third];
    let [outer, inner] = bounds.map(|bound| bound as u32);
    let mut edges: Vec<(u16, u16)> = steps(LAST + 1).chain([(LAST, 1), (LAST, 2)]).collect();
    edges.sort();
    let lists = Lists {
        nodes: vec![7, NONE, NONE, NONE, NONE],
        edges,
        loops: vec![LoopRecord::new(1, LAST, outer), LoopRecord::new(2, LAST, inner)],
    };
    let number = |number: u128| u32::try_from(number).expect("each part has 32 bits");
    let draft = Draft { version: 1, policy: random.below(4) as u8, ways: 2, sets: 1, lists, facts: Vec::new() };
    (draft, costs.map(number).to_vec(), number(penalty))
}
