//! All that is wrong with the rows of a refused fact: what could have been told in the place of what was.

use super::facts::Ground;
use super::{Draft, Graph, Paper};
use crate::machine::Geometry;

pub struct Faults {
    /// Numbers and second places, the one that is told first.
    pub all: Vec<(u8, usize)>,
    /// The scope's first node, and its first edge: there a number in the file and one in the scope part.
    pub first_node: usize,
    pub first_edge: usize,
}

impl Faults {
    /// Of the fact at this place, in lists that are sound up to the fact's rows.
    pub fn of(draft: &Draft, place: usize) -> Option<Faults> {
        let graph = Graph::new(&draft.lists);
        let geometry = Geometry::read(draft.policy, draft.ways, draft.sets).ok()?;
        let ground = Ground { geometry, graph: &graph, rules: &Paper };
        let record = draft.facts.get(place)?;
        let mut fact = ground.read_head([record.scope, record.block, record.limit])?;
        let rows = ground.rows(&fact, &record.rows);
        let mut all: Vec<(u8, usize)> = rows.filter(|(_, row)| row.is_none()).map(|(node, _)| (16, node)).collect();
        // The edges are looked at only where every row is sound.
        if let Ok(rows) = ground.read_rows(&fact, &record.rows) {
            fact.rows = rows;
            all = ground.broken(&fact).collect();
        }
        let first_edge = graph.numbered_edges(fact.scope).next().map_or(0, |(edge, _)| edge);
        Some(Faults { all, first_node: *graph.scope_nodes(fact.scope).start(), first_edge })
    }
}
