//! What has gathered since b at each node of a scope: item 6's "the sets gathered over all walks (loop limits unheeded)".
//!
//! A block has gathered at a node if some walk from b comes past a fetch of the block to the node, without b in between.
//! So it is enough to know where walks from b come to, and for each other block where walks from its fetches there come to.

use super::{Graph, Row, Scope};
use crate::machine::Geometry;
use std::collections::{BTreeMap, BTreeSet};

#[derive(Debug, PartialEq)]
pub struct Gathered {
    pub scope: Scope,
    pub block: u16,
    /// For each node of the scope, the blocks that have gathered there; None where no walk from b comes to it.
    pub at: Vec<Option<BTreeSet<u16>>>,
}

impl Gathered {
    pub fn since(geometry: Geometry, graph: &Graph, scope: Scope, block: u16) -> Gathered {
        let first = *graph.scope_nodes(scope).start();
        let onward = Onward::new(graph, scope, block);
        let starts: Vec<usize> = graph.fetchers(scope, block).collect();
        let arrived = onward.from(&starts);
        let gathers = |&other: &u16| other != block && geometry.set_of(other) == geometry.set_of(block);
        let mut at = vec![None; graph.scope_nodes(scope).count()];
        let mut fetches: BTreeMap<u16, Vec<usize>> = BTreeMap::new();
        for node in arrived {
            at[node - first] = Some(BTreeSet::new());
            let other = graph.blocks[node].filter(gathers);
            other.into_iter().for_each(|other| fetches.entry(other).or_default().push(node));
        }
        for (other, nodes) in fetches {
            for node in onward.from(&nodes) {
                at[node - first].get_or_insert_with(BTreeSet::new).insert(other);
            }
        }
        Gathered { scope, block, at }
    }

    /// The rows that say just this: 9 where no walk from b arrives, 8 where l or more have gathered, else the blocks.
    pub fn rows(&self, limit: usize) -> Vec<Row> {
        let row = |met: &Option<BTreeSet<u16>>| match met {
            None => Row::NotSince,
            Some(blocks) if blocks.len() >= limit => Row::Many,
            Some(blocks) => Row::Blocks(blocks.clone()),
        };
        self.at.iter().map(row).collect()
    }

    /// The least node that fetches b where l or more can have gathered: then no rows are evidence for l.
    pub fn too_many(&self, graph: &Graph, limit: usize) -> Option<usize> {
        let first = *graph.scope_nodes(self.scope).start();
        let gathered = |node: usize| self.at[node - first].as_ref().map_or(0, BTreeSet::len);
        graph.fetchers(self.scope, self.block).find(|&node| gathered(node) >= limit)
    }

    /// The smallest limit up to the largest for which evidence exists.
    pub fn least_limit(&self, graph: &Graph, largest: usize) -> Option<usize> {
        (1..=largest).find(|&limit| self.too_many(graph, limit).is_none())
    }
}

/// Where walks inside the scope come to that do not pass b on their way.
struct Onward<'a> {
    graph: &'a Graph,
    block: u16,
    first: usize,
    next: Vec<Vec<usize>>,
}

impl Onward<'_> {
    fn new(graph: &Graph, scope: Scope, block: u16) -> Onward<'_> {
        let first = *graph.scope_nodes(scope).start();
        let mut next = vec![Vec::new(); graph.scope_nodes(scope).count()];
        graph.scope_edges(scope).for_each(|(u, v)| next[u - first].push(v));
        Onward { graph, block, first, next }
    }

    /// The nodes that a walk of at least one edge comes to from one of these.
    fn from(&self, starts: &[usize]) -> BTreeSet<usize> {
        let mut met = BTreeSet::new();
        let mut open = starts.to_vec();
        while let Some(node) = open.pop() {
            for &v in &self.next[node - self.first] {
                if met.insert(v) && self.graph.blocks[v] != Some(self.block) {
                    open.push(v);
                }
            }
        }
        met
    }
}
