//! With what costs, penalties and graphs times were asked for.

use crate::case::{judge, Draft, Graph, Paper, Scope, LARGEST_TIME};

#[derive(Default)]
pub struct Seen {
    /// Accepted files by how deep their loops are nested.
    depths: [u64; 8],
    /// Accepted files where some step has several ways on.
    branches: u64,
    /// Accepted files whose node 0 heads a loop.
    headed: u64,
    /// Times with a cost of 0, with a cost of 4,294,967,295, with no penalty, with the largest, with interruptions.
    free: u64,
    dearest: u64,
    no_penalty: u64,
    largest_penalty: u64,
    interrupted: u64,
    /// Times that are the largest that is told, and one more.
    largest: u64,
    one_more: u64,
    /// Times past 64 bits.
    past_words: u64,
}

impl Seen {
    pub fn add_draft(&mut self, draft: &Draft) {
        let graph = Graph::new(&draft.lists);
        let depth = (0..graph.blocks.len()).map(|node| graph.loops_around(node).len()).max().unwrap_or(0);
        self.depths[depth.min(7)] += 1;
        let forward = |node: usize| graph.edges.iter().filter(|&&(u, v)| u == node && u < v).count();
        self.branches += u64::from(graph.scope_nodes(Scope::Whole).any(|node| forward(node) > 1));
        self.headed += u64::from(graph.loop_of_header(0).is_some());
    }

    pub fn add(&mut self, file: &[u8], costs: &[u32], penalty: u32, interruptions: u16) {
        let Ok(case) = judge(file, &Paper) else { return };
        if costs.len() != case.graph.blocks.len() {
            return;
        }
        let time = case.time(costs, penalty, interruptions, &Paper);
        self.free += u64::from(costs.contains(&0));
        self.dearest += u64::from(costs.contains(&u32::MAX));
        self.no_penalty += u64::from(penalty == 0);
        self.largest_penalty += u64::from(penalty == u32::MAX);
        self.interrupted += u64::from(interruptions > 0);
        self.largest += u64::from(time == LARGEST_TIME);
        self.one_more += u64::from(time == LARGEST_TIME + 1);
        self.past_words += u64::from(time > u64::MAX.into());
    }

    pub fn report(&self) {
        let Seen { depths, branches, headed, free, dearest, .. } = self;
        println!("  sound files with loops nested 0 to 7 deep: {depths:?}; with branches: {branches}; where node 0 heads a loop: {headed}");
        let Seen { no_penalty, largest_penalty, interrupted, largest, one_more, past_words, .. } = self;
        println!("  times with a cost of 0: {free}, of 4294967295: {dearest}; with penalty 0: {no_penalty}, 4294967295: {largest_penalty}; with interruptions: {interrupted}");
        println!("  times of 9223372036854775807: {largest}, of one more: {one_more}, past 64 bits: {past_words}");
    }

    pub fn demand(&self, at_least: u64) -> Result<(), String> {
        let Seen { branches, headed, free, dearest, no_penalty, .. } = self;
        let Seen { largest_penalty, interrupted, largest, one_more, past_words, .. } = self;
        let kinds = [branches, headed, free, dearest, no_penalty, largest_penalty, interrupted, largest, one_more];
        let enough = kinds.into_iter().chain(&self.depths[..5]).all(|&count| count >= at_least);
        (enough && *past_words > 0).then_some(()).ok_or("some kind of time was seen too seldom".to_string())
    }
}
