//! What was found, and in what scopes.

use crate::case::{Found, Graph, Scope};

#[derive(Default)]
pub struct Seen {
    /// By the limit that was found; 0 stands for none.
    limits: [u64; 9],
    /// Rows that were found, by their number.
    rows: [u64; 10],
    /// Scopes of small graphs by how deep loops are nested inside them.
    depths: [u64; 8],
    /// Limits that are too small, and those of them that were tried with all rows that there are.
    pub too_small: u64,
    pub all_rows: u64,
}

impl Seen {
    pub fn add(&mut self, found: &Found) {
        self.limits[found.as_ref().map_or(0, |(limit, _)| *limit)] += 1;
        let rows = found.iter().flat_map(|(_, rows)| rows);
        rows.for_each(|row| self.rows[usize::from(row[0])] += 1);
    }

    pub fn add_scope(&mut self, graph: &Graph, scope: Scope) {
        let outside = graph.strictly_around(scope).len() + usize::from(scope != Scope::Whole);
        let depths = graph.scope_nodes(scope).map(|node| graph.loops_around(node).len() - outside);
        self.depths[depths.max().unwrap_or(0).min(7)] += 1;
    }

    pub fn report(&self, graphs: usize) {
        println!("finds in {graphs} small graphs and some larger ones, by the limit: none, 1 to 8: {:?}", self.limits);
        println!("  rows found, by number, 0 to 9: {:?}", self.rows);
        println!("  scopes of small graphs with loops nested 0 to 7 deep in them: {:?}", self.depths);
        println!("  limits too small: {}, {} of them with all rows that there are", self.too_small, self.all_rows);
    }

    pub fn demand(&self, at_least: u64) -> Result<(), String> {
        let found = self.limits.iter().chain(&self.rows);
        let tried = self.depths[..4].iter().chain([&self.too_small, &self.all_rows]);
        let enough = found.chain(tried).all(|&count| count >= at_least);
        enough.then_some(()).ok_or("some kind of what is found was seen too seldom".to_string())
    }
}
