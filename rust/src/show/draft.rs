//! The lists of a case file, and set states, in the paper's words.

use crate::case::{Draft, FactRecord, LoopRecord, Row, RowRecord, NO_LIMIT, WHOLE_GRAPH};
use crate::machine::{block_or_none, Outcome, SetState};
use crate::walk::{Interruption, Walker};

fn block(number: u16) -> String {
    block_or_none(number).map_or("none".to_string(), |block| block.to_string())
}

fn join(list: impl Iterator<Item = String>) -> String {
    let list: Vec<String> = list.collect();
    if list.is_empty() {
        return "none".to_string();
    }
    list.join(", ")
}

fn row(record: &RowRecord) -> String {
    match Row::read(record) {
        Some(Row::Blocks(blocks)) => {
            let list: Vec<String> = blocks.iter().map(u16::to_string).collect();
            format!("{{{}}}", list.join(" "))
        }
        Some(Row::Many) => "8".to_string(),
        Some(Row::NotSince) => "9".to_string(),
        None => format!("not laid out as a row: {record:?}"),
    }
}

fn fact((i, fact): (usize, &FactRecord)) -> String {
    let scope = if fact.scope == WHOLE_GRAPH { "whole graph".to_string() } else { format!("loop {}", fact.scope) };
    let rows = join(fact.rows.iter().map(row));
    format!("  fact {i}: {scope}, block {}, l = {}, rows {rows}\n", block(fact.block), fact.limit)
}

fn visits(record: &LoopRecord) -> String {
    if record.visits == NO_LIMIT {
        return String::new();
    }
    format!(" and W = {}", record.visits)
}

pub fn draft(draft: &Draft) -> String {
    let lists = &draft.lists;
    let policy = ["LRU", "FIFO", "NMRU", "tree"].get(usize::from(draft.policy)).unwrap_or(&"no policy");
    let nodes = lists.nodes.iter().enumerate().map(|(node, &number)| format!("{node} fetches {}", block(number)));
    let edges = lists.edges.iter().map(|(from, to)| format!("{from}-{to}"));
    let loops = lists.loops.iter().enumerate();
    let loops = loops.map(|(i, l)| format!("loop {i} is {} to {} with B = {}{}", l.first, l.last, l.bound, visits(l)));
    let facts: String = draft.facts.iter().enumerate().map(fact).collect();
    format!(
        "  version {}, machine: {policy}, ways {}, sets {}\n  nodes: {}\n  edges: {}\n  loops: {}\n{facts}",
        draft.version,
        draft.ways,
        draft.sets,
        join(nodes),
        join(edges),
        join(loops)
    )
}

pub fn state(state: &SetState) -> String {
    let lines: Vec<String> = state.lines.iter().map(|&number| block(number).replace("none", "-")).collect();
    format!("lines {}, bits {} ({:08b})", lines.join(" "), state.bits, state.bits)
}

/// What an interruption leaves in each set.
fn interruption(interruption: &Interruption) -> String {
    let Interruption { after, left } = interruption;
    let left = left.iter().enumerate().map(|(set, content)| format!("set {set} with {}", state(content)));
    format!("  after {after} visits a handler leaves {}\n", join(left))
}

/// A file, the content that a walk through it starts with, what handlers leave, and the walk, visit by visit.
pub fn story(file: &Draft, contents: &[SetState], walker: &Walker) -> String {
    let starts =
        contents.iter().enumerate().map(|(set, content)| format!("  set {set} starts with {}\n", state(content)));
    let word = |outcome: &Option<Outcome>| match outcome {
        Some(Outcome::Miss) => " miss",
        Some(Outcome::Hit) => " hit",
        None => "",
    };
    let visits = walker.walk.iter().zip(&walker.outcomes).map(|(node, outcome)| format!("{node}{}", word(outcome)));
    let handlers: String = walker.interruptions.iter().map(interruption).collect();
    format!("{}{}{handlers}  walk: {}\n", draft(file), starts.collect::<String>(), join(visits))
}
