//! Rows that pass: what has gathered since b is passed along the edges, round after round, until nothing changes.
//! Rows grow from 9 over the sets to 8.

use crate::case::{Graph, Row, Rules, Scope};
use crate::machine::Geometry;
use std::collections::BTreeSet;

/// What a fact is about, before its limit and rows.
#[derive(Clone, Copy)]
pub struct Question<'a> {
    pub geometry: Geometry,
    pub graph: &'a Graph,
    pub rules: &'a dyn Rules,
    pub scope: Scope,
    pub block: u16,
}

impl Question<'_> {
    /// The least rows for this limit that hold the seeds and pass the edge rule. A set of `limit` blocks or more is "many".
    pub fn close(&self, limit: usize, seeds: Vec<Row>) -> Vec<Row> {
        let first = *self.graph.scope_nodes(self.scope).start();
        let mut rows = seeds;
        loop {
            let mut changed = false;
            for (u, v) in self.graph.scope_edges(self.scope) {
                let grown = join(&rows[v - first], self.passed_on(u, &rows[u - first]), limit);
                changed |= grown != rows[v - first];
                rows[v - first] = grown;
            }
            if !changed {
                return rows;
            }
        }
    }

    /// Rows that hold nothing more than they must.
    pub fn least_rows(&self, limit: usize) -> Vec<Row> {
        self.close(limit, vec![Row::NotSince; self.graph.scope_nodes(self.scope).count()])
    }

    /// The least limit up to 9 for which rows pass.
    pub fn least_limit(&self) -> Option<usize> {
        let rows = self.least_rows(9);
        let mut sizes = self.fetchers_rows(&rows).map(gathered);
        sizes.try_fold(1, |most, blocks| Some(most.max(blocks? + 1)))
    }

    /// Rule 18: "no node that fetches b has row 8".
    pub fn passes(&self, rows: &[Row]) -> bool {
        self.fetchers_rows(rows).all(|row| *row != Row::Many)
    }

    fn fetchers_rows<'r>(&'r self, rows: &'r [Row]) -> impl Iterator<Item = &'r Row> {
        let first = *self.graph.scope_nodes(self.scope).start();
        self.graph.fetchers(self.scope, self.block).map(move |node| &rows[node - first])
    }

    /// What an edge out of u asks of the row at its other end.
    fn passed_on(&self, u: usize, row: &Row) -> Row {
        let fetched = self.graph.blocks[u];
        match row {
            _ if fetched == Some(self.block) => Row::Blocks(BTreeSet::new()),
            Row::Blocks(held) => {
                let set = |block: u16| self.geometry.set_of(block);
                let own = fetched.filter(|&block| set(block) == set(self.block));
                Row::Blocks(self.rules.passed_on(held, own))
            }
            other => other.clone(),
        }
    }
}

fn gathered(row: &Row) -> Option<usize> {
    match row {
        Row::Blocks(blocks) => Some(blocks.len()),
        Row::Many => None,
        Row::NotSince => Some(0),
    }
}

/// The least row above both.
fn join(row: &Row, other: Row, limit: usize) -> Row {
    match (row, other) {
        (Row::Many, _) | (_, Row::Many) => Row::Many,
        (Row::NotSince, other) => capped(other, limit),
        (row, Row::NotSince) => row.clone(),
        (Row::Blocks(one), Row::Blocks(two)) => capped(Row::Blocks(one.union(&two).copied().collect()), limit),
    }
}

fn capped(row: Row, limit: usize) -> Row {
    match row {
        Row::Blocks(blocks) if blocks.len() >= limit => Row::Many,
        other => other,
    }
}
