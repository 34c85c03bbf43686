//! Small files that come close to their bounds: a block again and again, with few others between two of its fetches and
//! more than the cache holds over the whole, on a chain of nodes with up to two loops.

use super::graphs::steps;
use super::{facts, nests};
use crate::case::{Draft, Graph, Lists, LoopRecord, Rules, VERSIONS};
use crate::machine::{Geometry, Shape};
use crate::random::Random;

pub fn braid(random: &mut Random, rules: &dyn Rules) -> Draft {
    let (policy, ways) = random.pick(&Shape::all_numbers());
    let ways = if random.chance(80) { ways.min(4) } else { ways };
    let geometry = Geometry::read(policy, ways, 1).expect("fewer ways are in range as well");
    let nodes = strands(random, ways.into());
    let version = random.pick(&VERSIONS);
    let loops = two_loops(random, nodes.len() as u16, version);
    let back = loops.iter().map(|record| (record.last, record.first));
    let mut edges: Vec<(u16, u16)> = steps(nodes.len() as u16).chain(back).collect();
    edges.sort();
    let lists = Lists { nodes, edges, loops };
    let facts = facts::facts(random, geometry, &Graph::new(&lists), rules, 200);
    Draft { version, policy, ways, sets: 1, lists, facts }
}

/// Block 0, some other blocks, block 0, some other blocks, and so on.
fn strands(random: &mut Random, ways: usize) -> Vec<u16> {
    let others = random.within(1..=ways + 2);
    let between = random.within(1..=ways);
    let mut nodes = vec![0];
    for _ in 0..random.within(1..=8) {
        let gap = random.within(1..=between);
        nodes.extend((0..gap).map(|_| random.within(1..=others) as u16));
        nodes.push(0);
    }
    nodes
}

/// No loop, one, or two nested ones.
fn two_loops(random: &mut Random, n: u16, version: u8) -> Vec<LoopRecord> {
    let mut loops = Vec::new();
    let (mut first, mut last, mut outer) = (0, n - 1, 1);
    for _ in 0..random.below(3) {
        first = random.within(first.into()..=last.into()) as u16;
        last = random.within(first.into()..=last.into()) as u16;
        let bound = random.within(1..=4) as u32;
        let visits = nests::visits(random, version, bound, outer);
        loops.push(LoopRecord { first, last, bound, visits });
        outer = nests::header_visits(bound, visits, outer);
        if first == last {
            break;
        }
        first += 1;
    }
    loops
}
