//! Item 13 of the requests, "Cycles for the slot table": "With a 32-bit cost for each node and a 32-bit penalty for each miss,
//! give a time for the whole graph."
//!
//! A range of nodes, a loop or the whole graph, is a list of steps: the loops directly inside it, and the nodes that none of
//! them has. Its longest way is told from its end: for each step, the last first, how long it takes from there on. What is too
//! large stays the largest number of 128 bits: no sum and no product falls when one of its parts grows.

use super::verdict::judge;
use super::{Case, Graph, Rules, Scope};
use crate::refusal::{demand, Refusal};
use std::collections::{BTreeMap, BTreeSet};

/// "27 if the time exceeds 9,223,372,036,854,775,807"
pub const LARGEST_TIME: u128 = 9_223_372_036_854_775_807;

/// "Refusals: the check's own but its 20, then 20 for a cost list of the wrong length, then 27 if the time exceeds
/// 9,223,372,036,854,775,807; both at place 0."
pub fn time(file: &[u8], costs: &[u32], penalty: u32, interruptions: u16, rules: &dyn Rules) -> Result<u64, Refusal> {
    let case = judge(file, rules)?;
    demand(20, costs.len() == case.graph.blocks.len())?;
    rules.told(case.time(costs, penalty, interruptions, rules)).ok_or(Refusal::new(27, 0))
}

impl Case {
    /// "The graph's time is the longest way from node 0 in the same sense, plus penalty times the total miss bound for the
    /// given p."
    pub fn time(&self, costs: &[u32], penalty: u32, interruptions: u16, rules: &dyn Rules) -> u128 {
        let misses = rules.charged(&self.bounds(interruptions, rules));
        let longest = Ways { graph: &self.graph, costs, rules }.longest(Scope::Whole);
        longest.saturating_add(misses.saturating_mul(penalty.into()))
    }
}

/// The ways through a graph whose nodes have these costs.
pub struct Ways<'a> {
    pub graph: &'a Graph,
    pub costs: &'a [u32],
    pub rules: &'a dyn Rules,
}

/// How long the longest way from a step to the end takes, and where the step begins that comes next on it.
type Rest = (u128, Option<usize>);

impl Ways<'_> {
    /// "Inside a loop, the longest way from the header along forward edges": its time. Node 0 is the whole graph's.
    pub fn longest(&self, scope: Scope) -> u128 {
        self.rests(scope)[self.graph.scope_nodes(scope).start()].0
    }

    /// The first nodes of the longest way's steps.
    pub fn way(&self, scope: Scope) -> Vec<usize> {
        let rests = self.rests(scope);
        let next = |first: &usize| rests[first].1;
        std::iter::successors(Some(*self.graph.scope_nodes(scope).start()), next).collect()
    }

    /// "times B, is the loop's time for one entry; W is not used here."
    fn loop_time(&self, i: usize) -> u128 {
        self.longest(Scope::Loop(i)).saturating_mul(self.rules.rounds(self.graph.loops[i].bound))
    }

    /// The time of the step that begins at this node: "each inner loop taken as one step of its own time".
    fn step_time(&self, scope: Scope, first: usize) -> u128 {
        self.rules.inner(self.graph, scope, first).map_or(self.costs[first].into(), |i| self.loop_time(i))
    }

    /// Where the node's step begins.
    fn step(&self, scope: Scope, node: usize) -> usize {
        self.rules.inner(self.graph, scope, node).map_or(node, |i| self.graph.loops[i].header())
    }

    /// For each step of the scope its rest. A forward edge leads to the beginning of a later step, or stays in its own.
    fn rests(&self, scope: Scope) -> BTreeMap<usize, Rest> {
        let mut onward: BTreeMap<usize, BTreeSet<usize>> = BTreeMap::new();
        for (u, v) in self.graph.scope_edges(scope).filter(|(u, v)| u < v) {
            onward.entry(self.step(scope, u)).or_default().insert(self.step(scope, v));
        }
        let firsts: BTreeSet<usize> = self.graph.scope_nodes(scope).map(|node| self.step(scope, node)).collect();
        let mut rests: BTreeMap<usize, Rest> = BTreeMap::new();
        for &first in firsts.iter().rev() {
            let after = onward.get(&first).into_iter().flatten().filter(|&&next| next != first);
            let best = self.rules.onward(&mut after.map(|&next| (rests[&next].0, next)));
            let time = self.step_time(scope, first).saturating_add(best.map_or(0, |(time, _)| time));
            rests.insert(first, (time, best.map(|(_, next)| next)));
        }
        rests
    }
}
