//! What can have gathered since b, by going through the walks themselves: "over all walks inside the scope together, loop
//! limits unheeded, starting at any node of the scope that fetches b, reachable from node 0 or not".
//!
//! A walk matters only by the node that it has come to and the blocks that it has met since b, so it is enough to go
//! once through every such pair.

use crate::case::{Gathered, Graph, Scope};
use crate::machine::Geometry;
use std::collections::BTreeSet;

pub fn gather(geometry: Geometry, graph: &Graph, scope: Scope, block: u16) -> Gathered {
    let first = *graph.scope_nodes(scope).start();
    let edges: Vec<(usize, usize)> = graph.scope_edges(scope).collect();
    let mut at = vec![None; graph.scope_nodes(scope).count()];
    let mut seen = BTreeSet::new();
    let mut ways: Vec<(usize, BTreeSet<u16>)> =
        graph.fetchers(scope, block).map(|node| (node, BTreeSet::new())).collect();
    while let Some((u, met)) = ways.pop() {
        for &(_, v) in edges.iter().filter(|&&(from, _)| from == u) {
            if !seen.insert((v, met.clone())) {
                continue;
            }
            at[v - first].get_or_insert_with(BTreeSet::new).extend(&met);
            // A walk on which b is fetched again is a new walk from there; it is among the first.
            let fetched = graph.blocks[v];
            if fetched != Some(block) {
                let own = fetched.filter(|&other| geometry.set_of(other) == geometry.set_of(block));
                ways.push((v, met.iter().copied().chain(own).collect()));
            }
        }
    }
    Gathered { scope, block, at }
}
