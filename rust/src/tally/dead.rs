//! Dead nodes: how often 26 was seen where a hasty test of what leads to a node would have told something else.

use crate::case::{Draft, Graph};

#[derive(Default)]
pub struct Dead {
    /// More than one node is dead: the least must be told.
    several: u64,
    /// Edges lead to the least dead node, from dead ones alone: it heads a dead loop.
    led_to: u64,
    /// No edge leads to the least dead node or from it.
    alone: u64,
    /// A dead node leads to a live one.
    leads_on: u64,
}

impl Dead {
    pub fn add(&mut self, draft: &Draft) {
        let graph = Graph::new(&draft.lists);
        let reached = graph.reached();
        let dead: Vec<usize> = (0..graph.blocks.len()).filter(|node| !reached.contains(node)).collect();
        let Some(least) = dead.first() else { return };
        let any = |test: fn(usize, usize, usize) -> bool| graph.edges.iter().any(|&(u, v)| test(*least, u, v));
        self.several += u64::from(dead.len() > 1);
        self.led_to += u64::from(any(|least, _, v| v == least));
        self.alone += u64::from(!any(|least, u, v| u == least || v == least));
        self.leads_on += u64::from(graph.edges.iter().any(|(u, v)| !reached.contains(u) && reached.contains(v)));
    }

    pub fn report(&self) {
        let Dead { several, led_to, alone, leads_on } = self;
        println!("dead nodes: several in {several} files, the least in a dead loop in {led_to} and without edges in {alone},");
        println!("  one that leads to a live node in {leads_on}");
    }

    pub fn demand(&self, at_least: u64) -> Result<(), String> {
        let fewest = self.several.min(self.led_to).min(self.alone).min(self.leads_on);
        (fewest >= at_least).then_some(()).ok_or("some kind of dead node was seen too seldom".to_string())
    }
}
