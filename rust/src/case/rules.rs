//! The paper's formulas, one method each, so that a wrong one can be put in the place of a single right one and be
//! seen to fail.

use super::{Bounds, Graph, Scope, LARGEST_TIME};
use crate::machine::Policy;
use std::collections::BTreeSet;

/// What a fact's bound depends on: "E is its entries, N the sum of counts of its nodes that fetch b".
#[derive(Clone, Copy)]
pub struct Stakes {
    pub policy: Policy,
    pub ways: u128,
    pub limit: u128,
    /// The lesser of E + p and N.
    pub entries: u128,
    pub fetches: u128,
}

pub trait Rules {
    /// "a node's count is the header visits of its innermost loop"
    fn count(&self, graph: &Graph, node: usize) -> u128 {
        graph.count(node).expect("rule 10 holds")
    }

    /// "its entries the lesser of W and that outer number": the header visits of the next loop out.
    fn entries(&self, graph: &Graph, scope: Scope) -> u128 {
        let outer = graph.header_visits(&graph.strictly_around(scope));
        match scope {
            Scope::Whole => outer,
            Scope::Loop(i) => graph.loops[i].visits.map_or(outer, |most| outer.min(most)),
        }
    }

    /// p, which is every fact's: also of those that are not the first of their set.
    fn interruptions(&self, most: u128, _before_in_set: usize) -> u128 {
        most
    }

    /// "Every fact's E becomes the lesser of E + p and N, in fact bounds and in M(l), for each policy."
    fn entered(&self, entries: u128, interruptions: u128, fetches: u128) -> u128 {
        fetches.min(entries + interruptions)
    }

    /// The same in M(l).
    fn entered_in_m(&self, entries: u128, interruptions: u128, fetches: u128) -> u128 {
        self.entered(entries, interruptions, fetches)
    }

    /// "g = ceil(k/(l-1))"
    fn group(&self, ways: u128, limit: u128) -> u128 {
        ways.div_ceil(limit - 1)
    }

    /// "bound of a fact"
    fn fact_bound(&self, stakes: Stakes) -> u128 {
        let Stakes { policy, ways, limit, entries, fetches } = stakes;
        match policy {
            Policy::Lru => entries,
            Policy::Fifo if limit == 1 => entries,
            // "the bound for l = 2 is E, and the factor l starts at 3"
            Policy::Nmru if limit <= 2 => entries,
            Policy::Fifo => entries + (fetches - entries) / self.group(ways, limit),
            Policy::Nmru => fetches.min(limit * entries),
            Policy::Tree if limit <= self.tree_limit(ways) => entries,
            // "a larger limit gets N, because no larger limit helps in general"
            Policy::Tree => fetches,
        }
    }

    /// "A fact whose limit is at most 1 + log2 k has bound E": as many halvings as leave one line.
    fn tree_limit(&self, ways: u128) -> u128 {
        1 + u128::from(ways.ilog2())
    }

    /// "floor(k·M(l)/(k-l+1))"
    fn floor(&self, ways: u128, limit: u128, lru_misses: u128) -> u128 {
        ways * lru_misses / (ways - limit + 1)
    }

    /// "each inner loop taken as one step": the loop directly inside the scope that has the node, if one has.
    fn inner(&self, graph: &Graph, scope: Scope, node: usize) -> Option<usize> {
        graph.directly_inside(scope, node)
    }

    /// "the longest way": of the ways that go on from a step, each with the step that it goes to. It may also end there.
    fn onward(&self, ways: &mut dyn Iterator<Item = (u128, usize)>) -> Option<(u128, usize)> {
        ways.max()
    }

    /// "times B"
    fn rounds(&self, bound: u128) -> u128 {
        bound
    }

    /// "penalty times the total miss bound for the given p"
    fn charged(&self, bounds: &Bounds) -> u128 {
        bounds.total
    }

    /// "27 if the time exceeds 9,223,372,036,854,775,807"
    fn told(&self, time: u128) -> Option<u64> {
        (time <= LARGEST_TIME).then_some(time as u64)
    }

    /// What row v must hold where row u is a set: "row u's blocks and also u's block where u fetches one of b's set".
    fn passed_on(&self, held: &BTreeSet<u16>, own: Option<u16>) -> BTreeSet<u16> {
        held.iter().copied().chain(own).collect()
    }
}

/// The paper itself.
pub struct Paper;

impl Rules for Paper {}
