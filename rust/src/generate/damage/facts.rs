//! Faults of facts and rows: rules 11 to 18, 24 and 25.

use super::Spot;
use crate::case::{Draft, FactRecord, Graph, Row, RowRecord, Scope, TRAILER, WHOLE_GRAPH};
use crate::machine::NONE;
use crate::random::Random;
use std::collections::BTreeSet;

/// Rules 11 and 15: the bytes from inside a fact on are missing, up to the trailer.
pub fn cut(random: &mut Random, draft: &Draft, file: &mut Vec<u8>, rule: u8, spot: Spot) {
    if draft.facts.is_empty() {
        return;
    }
    let i = spot.index(random, draft.facts.len());
    let inside = if rule == 11 { random.below(6) } else { random.within(6..=draft.facts[i].size() - 1) };
    let end = file.len() - TRAILER;
    file.drain(end.min(draft.fact_start(i) + inside)..end);
}

/// The lists are sound, but for faults of later rules.
pub fn damage(random: &mut Random, draft: &mut Draft, rule: u8, spot: Spot) {
    if draft.facts.is_empty() {
        return;
    }
    let i = spot.index(random, draft.facts.len());
    match rule {
        12 => spoil_head(random, draft, i),
        13 => disorder(random, draft, i),
        14 => add_unfetched(random, draft, i),
        16 => (0..random.pick(&[1, 1, 3])).for_each(|_| spoil_row(random, draft, i)),
        17 | 24 | 25 => break_edge_rule(random, draft, i, rule),
        _ => (0..random.pick(&[1, 1, 3])).for_each(|_| forget_at_fetcher(random, draft, i)),
    }
}

/// Rule 12: loop number, block or l out of range.
fn spoil_head(random: &mut Random, draft: &mut Draft, i: usize) {
    let loops = draft.lists.loops.len() as u16;
    let ways = u16::from(draft.ways);
    let fact = &mut draft.facts[i];
    match random.below(3) {
        0 => fact.scope = random.pick(&[loops, loops + 1, WHOLE_GRAPH - 1]),
        1 => fact.block = NONE,
        _ => fact.limit = random.pick(&[0, ways + 1, 65_535]),
    }
}

/// Rule 13: a fact that does not come after the one before it; the first fact has none before it.
fn disorder(random: &mut Random, draft: &mut Draft, i: usize) {
    match random.below(3) {
        0 if i > 0 => draft.facts.swap(i - 1, i),
        1 if i > 0 => draft.facts[i].block = random.below(draft.facts[i - 1].block.into()) as u16,
        _ => {
            let again =
                FactRecord { scope: random.pick(&[draft.facts[i].scope, WHOLE_GRAPH]), ..draft.facts[i].clone() };
            draft.facts.insert(i + 1, again);
        }
    }
}

/// Rule 14: a fact in order about a block that no node fetches.
fn add_unfetched(random: &mut Random, draft: &mut Draft, i: usize) {
    let before = i.checked_sub(1).map(|before| draft.facts[before].block);
    let at_end = i + 1 == draft.facts.len() && random.chance(80);
    let after = |block: u16| block.saturating_add(1);
    let (from, to, place) = if at_end {
        (after(draft.facts[i].block), NONE, i + 1)
    } else {
        (before.map_or(0, after), draft.facts[i].block, i)
    };
    let free: Vec<u16> = (from..to).filter(|block| !draft.lists.nodes.contains(block)).take(50).collect();
    if !free.is_empty() {
        let fact = FactRecord { block: random.pick(&free), ..draft.facts[i].clone() };
        draft.facts.insert(place, fact);
    }
}

/// Rule 16: a row that is not sound.
fn spoil_row(random: &mut Random, draft: &mut Draft, i: usize) {
    let sets = u16::from(draft.sets);
    let fact = &mut draft.facts[i];
    let (block, limit) = (fact.block, fact.limit);
    let j = random.below(fact.rows.len());
    let row = &mut fact.rows[j];
    let used = if row[0] < 8 { usize::from(row[0]) } else { 0 };
    match random.below(6) {
        0 => row[0] = random.pick(&[10, 11, 255, 256, 65_535]),
        // As many blocks as the limit, all of b's set and rising: one too many.
        1 => *row = filled(block, limit.min(7), sets),
        2 if used < 7 => row[random.within(used + 1..=7)] = random.word(),
        3 if used > 0 => row[random.within(1..=used)] = random.pick(&[block, NONE, block ^ 1]),
        4 if used > 1 => row[1..=used].reverse(),
        5 if used > 1 => row[2] = row[1],
        _ => row[0] = random.pick(&[limit, used as u16 + 1, 7]),
    }
}

fn filled(block: u16, number: u16, sets: u16) -> [u16; 8] {
    let others = (block % sets..NONE).step_by(sets.into()).filter(|&other| other != block);
    let mut row = Row::Blocks(others.take(number.into()).collect()).record();
    row[0] = number;
    row
}

/// The graph, and the scope of fact i in it.
fn scope_of(draft: &Draft, i: usize) -> (Graph, Scope) {
    let graph = Graph::new(&draft.lists);
    let scope = graph.scope(draft.facts[i].scope).expect("the fact was sound");
    (graph, scope)
}

/// Rules 17, 24 and 25: rows on which some edge misses just this rule, and often other edges miss others.
fn break_edge_rule(random: &mut Random, draft: &mut Draft, i: usize, rule: u8) {
    let (graph, scope) = scope_of(draft, i);
    let fact = &mut draft.facts[i];
    let first = *graph.scope_nodes(scope).start();
    let fetches = |node: usize| graph.blocks[node] == Some(fact.block);
    let edges = graph.scope_edges(scope).filter(|&(u, v)| fetches(u) == (rule == 24) && (u != v || rule == 24));
    let edges: Vec<(usize, usize)> = edges.collect();
    if let Some(&(u, v)) = edges.get(random.below(edges.len())) {
        let (before, after) = (&fact.rows[u - first], &fact.rows[v - first]);
        let (before, after) = rows_that_miss(random, rule, Row::read(before), Row::read(after));
        fact.rows[v - first] = after.record();
        if let Some(before) = before {
            fact.rows[u - first] = before.record();
        }
    }
    if random.chance(50) {
        tangle(random, &mut fact.rows);
    }
    if random.chance(20) {
        forget_at_fetcher(random, draft, i);
    }
}

/// Rows for the two ends of an edge that misses the rule, the first where it must be another than it is.
fn rows_that_miss(random: &mut Random, rule: u8, before: Option<Row>, after: Option<Row>) -> (Option<Row>, Row) {
    let empty = Row::Blocks(BTreeSet::new());
    match (rule, before, after) {
        (24, _, _) => (None, Row::NotSince),
        (25, _, Some(Row::Blocks(blocks))) if random.chance(50) => (Some(Row::Many), Row::Blocks(blocks)),
        (25, _, _) => (Some(Row::Many), random.pick(&[Row::NotSince, empty])),
        (_, Some(Row::Blocks(held)), Some(Row::Blocks(blocks))) if !held.is_empty() && random.chance(70) => {
            let lost = random.pick(&Vec::from_iter(held));
            (None, Row::Blocks(blocks.into_iter().filter(|&block| block != lost).collect()))
        }
        (_, Some(Row::Blocks(_)), _) => (None, random.pick(&[Row::NotSince, empty])),
        _ => (Some(empty), Row::NotSince),
    }
}

/// Some rows become others that are sound: many edges then miss their rules, of all kinds and in no order.
fn tangle(random: &mut Random, rows: &mut [RowRecord]) {
    for _ in 0..random.within(1..=4) {
        let other = random.pick(&[Row::NotSince, Row::NotSince, Row::Many, Row::Blocks(BTreeSet::new())]);
        rows[random.below(rows.len())] = other.record();
    }
}

/// Rule 18: row 8 at a node that fetches b.
fn forget_at_fetcher(random: &mut Random, draft: &mut Draft, i: usize) {
    let (graph, scope) = scope_of(draft, i);
    let fact = &mut draft.facts[i];
    let fetchers: Vec<usize> = graph.fetchers(scope, fact.block).collect();
    let node = random.pick(&fetchers);
    fact.rows[node - graph.scope_nodes(scope).start()] = Row::Many.record();
}
