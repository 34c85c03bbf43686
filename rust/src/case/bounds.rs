//! "The bounds" of facts, sets and the whole, in numbers of 128 bits.

use super::{Case, Fact, Graph, Rules, Stakes};
use crate::machine::{Geometry, Policy};
use std::collections::BTreeMap;

#[derive(Clone, Debug, PartialEq)]
pub struct Bounds {
    pub total: u128,
    pub sets: Vec<u128>,
    pub facts: Vec<u128>,
}

/// A node that fetches, and what is known of its fetches.
struct Fetcher {
    set: usize,
    count: u128,
    /// The fact that covers it: the order of facts (rule 13) leaves at most one.
    fact: Option<usize>,
}

/// A fact with its charge.
struct Charge {
    set: usize,
    limit: u128,
    /// What M(l) has for it.
    entries: u128,
    bound: u128,
}

pub struct Ledger<'a> {
    rules: &'a dyn Rules,
    geometry: Geometry,
    /// "the greatest number p of such interruptions"
    interruptions: u128,
    fetchers: Vec<Fetcher>,
    charges: Vec<Charge>,
}

impl<'a> Ledger<'a> {
    pub fn new(case: &Case, interruptions: u16, rules: &'a dyn Rules) -> Ledger<'a> {
        let Case { geometry, graph, facts } = case;
        let mut cover = BTreeMap::new();
        for (i, fact) in facts.iter().enumerate() {
            cover.extend(graph.fetchers(fact.scope, fact.block).map(|node| (node, i)));
        }
        let fetching = graph.blocks.iter().enumerate().filter_map(|(node, block)| Some((node, (*block)?)));
        let fetchers = fetching.map(|(node, block)| Fetcher {
            set: geometry.set_of(block),
            count: rules.count(graph, node),
            fact: cover.get(&node).copied(),
        });
        let (geometry, interruptions) = (*geometry, interruptions.into());
        let mut ledger = Ledger { rules, geometry, interruptions, fetchers: fetchers.collect(), charges: Vec::new() };
        let set_of = |fact: &Fact| geometry.set_of(fact.block);
        let before = |i: usize| facts[..i].iter().filter(|fact| set_of(fact) == set_of(&facts[i])).count();
        ledger.charges = (0..facts.len()).map(|i| ledger.charge(i, &facts[i], graph, before(i))).collect();
        ledger
    }

    /// "For a fact: E is its entries, N the sum of counts of its nodes that fetch b", and in place of E the lesser of E + p
    /// and N is charged.
    fn charge(&self, i: usize, fact: &Fact, graph: &Graph, before_in_set: usize) -> Charge {
        let covered = self.fetchers.iter().filter(|fetcher| fetcher.fact == Some(i));
        let fetches = covered.map(|fetcher| fetcher.count).sum();
        let entries = self.rules.entries(graph, fact.scope);
        let interruptions = self.rules.interruptions(self.interruptions, before_in_set);
        let stakes = Stakes {
            policy: self.geometry.shape.policy,
            ways: self.geometry.shape.ways as u128,
            limit: fact.limit as u128,
            entries: self.rules.entered(entries, interruptions, fetches),
            fetches,
        };
        Charge {
            set: self.geometry.set_of(fact.block),
            limit: stakes.limit,
            entries: self.rules.entered_in_m(entries, interruptions, fetches),
            bound: self.rules.fact_bound(stakes),
        }
    }

    /// The price of the set's facts with limit at most `limit`, plus the counts of its fetching nodes that none of these
    /// covers: A with their bounds (then every fact takes part, and what is left is "uncovered"), M(l) with their entries.
    fn sum(&self, set: usize, limit: u128, price: fn(&Charge) -> u128) -> u128 {
        let counts_in = |charge: &Charge| charge.limit <= limit;
        let facts = self.charges.iter().filter(|charge| charge.set == set && counts_in(charge)).map(price);
        let covered = |fetcher: &Fetcher| fetcher.fact.is_some_and(|i| counts_in(&self.charges[i]));
        let left = self.fetchers.iter().filter(|fetcher| fetcher.set == set && !covered(fetcher));
        facts.sum::<u128>() + left.map(|fetcher| fetcher.count).sum::<u128>()
    }

    /// "Set bound: for LRU and NMRU, A. For FIFO, the least of A and, for each l from 1 to k, floor(k·M(l)/(k-l+1))."
    fn set_bound(&self, set: usize) -> u128 {
        let ways = self.geometry.shape.ways as u128;
        let all = self.sum(set, ways, |charge| charge.bound);
        if self.geometry.shape.policy != Policy::Fifo {
            return all;
        }
        let lru_misses = |limit| self.sum(set, limit, |charge| charge.entries);
        let floors = (1..=ways).map(|limit| self.rules.floor(ways, limit, lru_misses(limit)));
        floors.fold(all, u128::min)
    }

    /// "Total: the sum over sets."
    pub fn bounds(&self) -> Bounds {
        let sets: Vec<u128> = (0..self.geometry.sets.into()).map(|set| self.set_bound(set)).collect();
        Bounds { total: sets.iter().sum(), sets, facts: self.charges.iter().map(|charge| charge.bound).collect() }
    }
}
