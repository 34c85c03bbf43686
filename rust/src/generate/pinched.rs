//! Small files of version 2 where a block is fetched less often than its scope is entered, so that N is below E: in the
//! innermost of three loops, whose W is small, and nowhere else. Walks can go round the outer two without it.

use super::evidence::Question;
use super::facts::fact;
use super::graphs::steps;
use crate::case::{Draft, FactRecord, Graph, Lists, LoopRecord, Rules, Scope};
use crate::machine::{Geometry, Shape};
use crate::random::Random;

/// The middle loop, the facts' scope.
const MIDDLE: usize = 1;

pub fn pinched(random: &mut Random, rules: &dyn Rules) -> Draft {
    let (policy, ways) = random.pick(&Shape::all_numbers());
    let sets = random.pick(&[1, 1, 2]);
    let geometry = Geometry::read(policy, ways, sets).expect("the shape is in range");
    let lists = lists(random);
    let graph = Graph::new(&lists);
    let mut blocks: Vec<u16> = lists.nodes[graph.loops[2].first..].to_vec();
    blocks.sort();
    blocks.dedup();
    let scope = Scope::Loop(MIDDLE);
    let asked = blocks.into_iter().map(|block| Question { geometry, graph: &graph, rules, scope, block });
    let facts: Vec<FactRecord> = asked.filter_map(|question| fact(random, &question)).collect();
    Draft { version: 2, policy, ways, sets, lists, facts }
}

/// Node 0 heads the outer loop, node 1 the middle one; blocks from 10 on are fetched in the inner loop alone.
fn lists(random: &mut Random) -> Lists {
    let (before, inside) = (random.within(0..=2) as u16, random.within(1..=4) as u16);
    let inner = 2 + before;
    let last = inner + inside - 1;
    let outside = (0..inner).map(|_| random.below(4) as u16).collect::<Vec<u16>>();
    let nodes = outside.into_iter().chain((0..inside).map(|_| 10 + random.below(3) as u16)).collect();
    let visits = random.within(1..=3) as u32;
    let outer = random.within(3..=12) as u32;
    let loops = vec![
        LoopRecord::new(0, last, outer),
        LoopRecord::new(1, last, random.within(1..=3) as u32),
        LoopRecord { visits, ..LoopRecord::new(inner, last, random.within(1..=3) as u32) },
    ];
    let back = [(inner - 1, 0), (inner - 1, 1), (last, 0), (last, 1), (last, inner)];
    let mut edges: Vec<(u16, u16)> = steps(last + 1).chain(back).collect();
    edges.sort();
    edges.dedup();
    Lists { nodes, edges, loops }
}
