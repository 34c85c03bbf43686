//! Item 10 of the requests, "Interrupts": with which p accepted files were checked, and where E + p stood beside N.

use crate::case::{Draft, Graph, Paper, Rules};
use std::cmp::Ordering;

#[derive(Default)]
pub struct Interrupted {
    /// Accepted files with p = 0, with 1, with 65,535, and with any other.
    none: u64,
    one: u64,
    most: u64,
    others: u64,
    /// Facts with E + p below, at and above N, p not being 0; and those where E alone is below N.
    below: u64,
    at: u64,
    above: u64,
    raised: u64,
}

impl Interrupted {
    pub fn add(&mut self, draft: &Draft, interruptions: u16) {
        let kind = match interruptions {
            0 => &mut self.none,
            1 => &mut self.one,
            65_535 => &mut self.most,
            _ => &mut self.others,
        };
        *kind += 1;
        if interruptions == 0 {
            return;
        }
        let graph = Graph::new(&draft.lists);
        for (scope, block) in draft.facts.iter().filter_map(|fact| Some((graph.scope(fact.scope)?, fact.block))) {
            let fetches: u128 = graph.fetchers(scope, block).filter_map(|node| graph.count(node)).sum();
            let entries = Paper.entries(&graph, scope);
            let beside = match (entries + u128::from(interruptions)).cmp(&fetches) {
                Ordering::Less => &mut self.below,
                Ordering::Equal => &mut self.at,
                Ordering::Greater => &mut self.above,
            };
            *beside += 1;
            self.raised += u64::from(entries < fetches);
        }
    }

    pub fn report(&self) {
        let Interrupted { none, one, most, others, below, at, above, raised } = self;
        println!("accepted files with p = 0: {none}, 1: {one}, 65535: {most}, others: {others}");
        println!(
            "  facts, p not 0, with E + p below, at and above N: {below}, {at}, {above}; with E below N: {raised}"
        );
    }

    pub fn demand(&self, at_least: u64) -> Result<(), String> {
        let Interrupted { none, one, most, others, below, at, above, raised } = self;
        let enough = [none, one, most, others, below, at, above, raised].into_iter().all(|&count| count >= at_least);
        enough.then_some(()).ok_or("some kind of p was seen too seldom".to_string())
    }
}
