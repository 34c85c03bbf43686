//! Rules 6 to 10, with 26 after 9, each over the whole file.

use super::draft::{Lists, LoopRecord};
use super::layout::Layout;
use super::{Graph, LARGEST_BOUND};
use crate::refusal::{refuse_least, Refusal};

/// The graph, if it keeps rules 6 to 10 and 26.
pub fn read_graph(layout: &Layout) -> Result<Graph, Refusal> {
    let lists = Lists::read(layout);
    rule_6(&lists)?;
    rule_7(&lists)?;
    let graph = Graph::new(&lists);
    refuse_least(8, graph.edges.iter().map(|&(u, v)| graph.enters_beside_header(u, v)))?;
    refuse_least(9, graph.edges.iter().map(|&(u, v)| graph.returns_to_no_header(u, v)))?;
    // "26, place the least such node, after 9 and before 10": "a node other than 0 that no edges lead to from node 0".
    let reached = graph.reached();
    refuse_least(26, (0..graph.blocks.len()).map(|node| !reached.contains(&node)))?;
    refuse_least(10, (0..graph.blocks.len()).map(|node| graph.count(node).is_none()))?;
    Ok(graph)
}

/// "edge end not below n, or edge not after the one before it"
pub fn rule_6(lists: &Lists) -> Result<(), Refusal> {
    let n = lists.nodes.len();
    let mut before = None;
    refuse_least(
        6,
        lists.edges.iter().map(|&edge| {
            let after = before.replace(edge) < Some(edge);
            !after || usize::from(edge.0.max(edge.1)) >= n
        }),
    )
}

/// "7 also for W = 0"; "loop's first above last, last not below n, B out of range, first not above that of the loop before it, or it crosses
/// an earlier loop". Up to the least bad loop all are nested or apart, so the loops that have begun and not ended form a
/// stack, the innermost on top: a loop crosses an earlier one exactly if it ends after the top.
pub fn rule_7(lists: &Lists) -> Result<(), Refusal> {
    let n = lists.nodes.len();
    let mut before = None;
    let mut open: Vec<u16> = Vec::new();
    refuse_least(
        7,
        lists.loops.iter().map(|&LoopRecord { first, last, bound, visits }| {
            let after = before.replace(first) < Some(first);
            while open.last().is_some_and(|&end| end < first) {
                open.pop();
            }
            let crosses = open.last().is_some_and(|&end| end < last);
            open.push(last);
            let limited = (1..=LARGEST_BOUND).contains(&bound) && visits > 0;
            first > last || usize::from(last) >= n || !limited || !after || crosses
        }),
    )
}
