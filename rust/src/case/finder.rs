//! Item 6 of the requests, "Find the facts ourselves": "for each block and a scope handed to it, the smallest age limit up
//! to k for which evidence exists, with the rows".

use super::gathered::Gathered;
use super::graph_rules::read_graph;
use super::layout::read_layout;
use super::{Row, RowRecord, ROW_NUMBERS};
use crate::machine::block_or_none;
use crate::refusal::{demand, Refusal};

/// The limit, and a row for each node of the scope; or "none".
pub type Found = Option<(usize, Vec<RowRecord>)>;

/// With room for so many numbers. "Refusals: 1 to 10 and 26 for the graph, then 12 for a bad scope or block, 14, and 20 for
/// too little room for the rows of the whole scope; the last three have place 0."
pub fn search(file: &[u8], scope: u16, block: u16, room: usize) -> Result<Found, Refusal> {
    let layout = read_layout(file)?;
    let graph = read_graph(&layout)?;
    let named = graph.scope(scope).zip(block_or_none(block));
    let (scope, block) = named.ok_or(Refusal::new(12, 0))?;
    demand(14, graph.fetchers(scope, block).next().is_some())?;
    demand(20, room >= ROW_NUMBERS * graph.scope_nodes(scope).count())?;
    let gathered = Gathered::since(layout.geometry, &graph, scope, block);
    let limit = gathered.least_limit(&graph, layout.geometry.shape.ways);
    Ok(limit.map(|limit| (limit, gathered.rows(limit).iter().map(Row::record).collect())))
}

/// The limit, if there is one; the rows go to the lent list. "With "none", as with a refusal, the lent rows stay as they
/// were; room past the rows always does."
pub fn find(file: &[u8], scope: u16, block: u16, rows: &mut [u16]) -> Result<Option<usize>, Refusal> {
    let found = search(file, scope, block, rows.len())?;
    let (limit, records) = found.unzip();
    for (lent, number) in rows.iter_mut().zip(records.iter().flatten().flatten()) {
        *lent = *number;
    }
    Ok(limit)
}
