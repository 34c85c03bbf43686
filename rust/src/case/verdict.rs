//! The check: every file gets its verdict, and an accepted one its bounds.

use super::bounds::Ledger;
use super::facts::{read_facts, Ground};
use super::graph_rules::read_graph;
use super::layout::read_layout;
use super::{Bounds, Fact, Graph, Rules};
use crate::machine::Geometry;
use crate::refusal::{demand, Refusal};

/// "The check writes 321 64-bit numbers to a lent list".
pub const NUMBERS: usize = 321;

/// An accepted file.
pub struct Case {
    pub geometry: Geometry,
    pub graph: Graph,
    pub facts: Vec<Fact>,
}

impl Case {
    /// "The caller hands the greatest number p of such interruptions, 0 to 65,535." The verdict does not ask for it.
    pub fn bounds(&self, interruptions: u16, rules: &dyn Rules) -> Bounds {
        Ledger::new(self, interruptions, rules).bounds()
    }
}

/// "1 to 10 in order, each over the whole file; then for each fact in turn 11 to 18; then 19": 24 and 25 "stand at 17's
/// old place before 18", and 26 stands "after 9 and before 10".
pub fn judge(file: &[u8], rules: &dyn Rules) -> Result<Case, Refusal> {
    let layout = read_layout(file)?;
    let graph = read_graph(&layout)?;
    let geometry = layout.geometry;
    let facts = read_facts(&layout, &Ground { geometry, graph: &graph, rules })?;
    Ok(Case { geometry, graph, facts })
}

/// "The check tests 20 first". "the total, 64 set bounds, 256 fact bounds, unused ones 0, later ones untouched."
pub fn check(file: &[u8], interruptions: u16, numbers: &mut [u64], rules: &dyn Rules) -> Result<(), Refusal> {
    demand(20, numbers.len() >= NUMBERS)?;
    let Bounds { total, sets, facts } = judge(file, rules)?.bounds(interruptions, rules);
    let padded = |list: Vec<u128>, length| list.into_iter().chain(std::iter::repeat(0)).take(length);
    let all = std::iter::once(total).chain(padded(sets, 64)).chain(padded(facts, 256));
    for (slot, number) in numbers.iter_mut().zip(all) {
        *slot = number.try_into().expect("a bound of an accepted file has 64 bits");
    }
    Ok(())
}
