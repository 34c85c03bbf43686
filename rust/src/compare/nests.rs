//! Item 7 of the requests, "Nests that shrink": which kinds of W were seen beside B, E and N.

use crate::case::{Draft, Graph, Paper, Rules, Scope, LARGEST_COUNT};
use std::cmp::Ordering;

/// How far from the largest count a count is near it.
const NEAR: u128 = 10;

#[derive(Default)]
pub struct Nests {
    /// Files of version 1 and of version 2.
    versions: [u64; 2],
    /// Loops of version 2 without a limit; and those with W below, at and above B times the outer visits.
    unlimited: u64,
    below: u64,
    at: u64,
    above: u64,
    /// Loops with W below the header visits of the next loop out: it limits their entries.
    entries: u64,
    /// Facts with N below E.
    fewer: u64,
    /// Files of version 2 with a count near the largest.
    near: u64,
}

impl Nests {
    pub fn add(&mut self, draft: &Draft) {
        let graph = Graph::new(&draft.lists);
        self.versions[usize::from(draft.version) - 1] += 1;
        if draft.version == 1 {
            return;
        }
        let counts = (0..graph.blocks.len()).filter_map(|node| graph.count(node));
        self.near += u64::from(counts.max().is_some_and(|count| count + NEAR > LARGEST_COUNT));
        for i in 0..graph.loops.len() {
            self.add_loop(&graph, i);
        }
        let facts = draft.facts.iter().filter_map(|fact| Some((graph.scope(fact.scope)?, fact.block)));
        let fetches = |scope, block| graph.fetchers(scope, block).filter_map(|node| graph.count(node)).sum::<u128>();
        self.fewer +=
            facts.filter(|&(scope, block)| fetches(scope, block) < Paper.entries(&graph, scope)).count() as u64;
    }

    fn add_loop(&mut self, graph: &Graph, i: usize) {
        let outer = graph.header_visits(&graph.strictly_around(Scope::Loop(i)));
        let kind = match graph.loops[i].visits.map(|most| most.cmp(&(graph.loops[i].bound * outer))) {
            None => &mut self.unlimited,
            Some(Ordering::Less) => &mut self.below,
            Some(Ordering::Equal) => &mut self.at,
            Some(Ordering::Greater) => &mut self.above,
        };
        *kind += 1;
        self.entries += u64::from(graph.loops[i].visits.is_some_and(|most| most < outer));
    }

    pub fn report(&self) {
        let Nests { versions, unlimited, below, at, above, entries, fewer, near } = self;
        println!("  of version 1 and 2: {versions:?}, of version 2 with a count near {LARGEST_COUNT}: {near}");
        println!("  loops of version 2 with W below, at and above B times the outer visits: {below}, {at}, {above}; without: {unlimited}");
        println!("  loops whose entries W limits: {entries}, facts with N below E: {fewer}");
    }

    pub fn demand(&self, at_least: u64) -> Result<(), String> {
        let Nests { versions, unlimited, below, at, above, entries, fewer, .. } = self;
        let kinds = [unlimited, below, at, above, entries, fewer];
        let enough = kinds.into_iter().chain(versions).all(|&count| count >= at_least);
        enough.then_some(()).ok_or("some kind of W was seen too seldom".to_string())
    }

    /// Files that a walk can go through have small counts.
    pub fn demand_near(&self, at_least: u64) -> Result<(), String> {
        (self.near >= at_least).then_some(()).ok_or("too few counts were near the largest".to_string())
    }
}
