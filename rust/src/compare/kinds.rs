//! What the sound files of a comparison were like.

use super::nests::Nests;
use crate::case::{Draft, FactRecord, Graph, Paper, Row};
use crate::generate::evidence::Question;
use crate::machine::Geometry;

/// Counts that show that the files were not all alike.
#[derive(Default)]
pub struct Kinds {
    policies: [u64; 4],
    ways: [u64; 9],
    one_set: u64,
    several_sets: u64,
    depths: [u64; 8],
    facts: u64,
    /// Facts whose evidence is larger than it need be.
    larger: u64,
    /// Rows by their number.
    rows: [u64; 10],
    pub nests: Nests,
}

fn is_larger(draft: &Draft, graph: &Graph, fact: &FactRecord) -> bool {
    let geometry = Geometry::read(draft.policy, draft.ways, draft.sets).expect("the file is sound");
    let scope = graph.scope(fact.scope).expect("the file is sound");
    let exact = Question { geometry, graph, rules: &Paper, scope, block: fact.block }.least_rows(fact.limit.into());
    exact.iter().map(Row::record).ne(fact.rows.iter().copied())
}

impl Kinds {
    pub fn add(&mut self, draft: &Draft) {
        let graph = Graph::new(&draft.lists);
        let depth = (0..graph.blocks.len()).map(|node| graph.loops_around(node).len()).max().unwrap_or(0);
        self.policies[usize::from(draft.policy)] += 1;
        self.ways[usize::from(draft.ways)] += 1;
        *(if draft.sets == 1 { &mut self.one_set } else { &mut self.several_sets }) += 1;
        self.depths[depth.min(7)] += 1;
        self.nests.add(draft);
        for fact in &draft.facts {
            self.facts += 1;
            self.larger += u64::from(is_larger(draft, &graph, fact));
            fact.rows.iter().for_each(|row| self.rows[usize::from(row[0])] += 1);
        }
    }

    pub fn report(&self) {
        let [lru, fifo, nmru, tree] = self.policies;
        println!("sound files: {lru} LRU, {fifo} FIFO, {nmru} NMRU, {tree} tree");
        println!("  with 1 to 8 ways: {:?}", &self.ways[1..]);
        println!("  with one set: {}, with several: {}", self.one_set, self.several_sets);
        println!("  with loops nested 0 to 7 deep: {:?}", self.depths);
        println!("  facts: {}, {} of them with more evidence than needed", self.facts, self.larger);
        println!("  rows by number, 0 to 9: {:?}", self.rows);
        self.nests.report();
    }
}
