//! Random graphs that keep rules 6 to 10 and 26, with loops nested as deep as asked.

use super::cases::Plan;
use super::nests;
use crate::case::{Graph, Lists, LARGEST};
use crate::machine::NONE;
use crate::random::Random;
use std::collections::BTreeSet;

/// How far ahead a forward edge may lead.
const AHEAD: usize = 12;

pub fn lists(random: &mut Random, plan: &Plan, blocks: &[u16]) -> Lists {
    let n = plan.nodes;
    let none = random.pick(&[0, 0, 15, 30]);
    let favourite = random.pick(blocks);
    let node = |random: &mut Random| match random.pick(blocks) {
        _ if random.chance(none) => NONE,
        _ if random.chance(plan.favourite) => favourite,
        block => block,
    };
    let nodes = (0..n).map(|_| node(random)).collect();
    let loops = nests::loops(random, plan);
    let mut lists = Lists { nodes, edges: Vec::new(), loops };
    nests::temper(random, plan.version, &mut lists);
    lists.edges = edges(random, plan, &Graph::new(&lists));
    enliven(&mut lists);
    lists
}

/// An edge from each node to the next.
pub fn steps(n: u16) -> impl Iterator<Item = (u16, u16)> {
    (1..n).map(|node| (node - 1, node))
}

/// To each node that no edge leads to from a live one it leads one from the node before. It keeps rule 8: a loop that
/// holds a node and does not begin there holds the node before as well.
pub fn enliven(lists: &mut Lists) {
    let mut live = BTreeSet::from([0]);
    for node in 1..lists.nodes.len() as u16 {
        if !lists.edges.iter().any(|&(u, v)| v == node && live.contains(&u)) {
            lists.edges.push((node - 1, node));
        }
        live.insert(node);
    }
    lists.edges.sort();
}

/// Edges that keep rules 8 and 9: mostly to the next node, some further ahead, and back to the headers around.
fn edges(random: &mut Random, plan: &Plan, graph: &Graph) -> Vec<(u16, u16)> {
    let n = graph.blocks.len();
    let (next, back) = (random.pick(&[90, 100]), random.pick(&[5, 30, 60]));
    let mut edges = Vec::new();
    for u in 0..n {
        for &i in graph.loops_around(u) {
            let percent = if graph.loops[i].last == u { 90 } else { back };
            if random.chance(percent) {
                edges.push((u as u16, graph.loops[i].header() as u16));
            }
        }
        for v in u + 1..n.min(u + AHEAD) {
            let percent = if v == u + 1 { next } else { plan.skips };
            if random.chance(percent) && !graph.enters_beside_header(u, v) {
                edges.push((u as u16, v as u16));
            }
        }
    }
    // Room is left for an edge from each node to the next.
    let mut room = usize::from(LARGEST[1]) - (n - 1);
    edges.sort();
    edges.retain(|&(u, v)| {
        let kept = v == u + 1 || room > 0;
        room -= usize::from(kept && v != u + 1);
        kept
    });
    edges
}
