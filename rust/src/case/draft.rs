//! The lists of a case file as they stand in it, right or wrong, and the writing of a file from them.

use super::layout::{loops_have_w, read_layout, sizes, Layout};
use super::rows::RowRecord;
use super::{NO_LIMIT, WHOLE_GRAPH};
use crate::bytes::{put_list, take, take_array, take_list, Little};
use crate::refusal::Refusal;

#[derive(Clone, Copy, Debug, PartialEq)]
pub struct LoopRecord {
    pub first: u16,
    pub last: u16,
    pub bound: u32,
    /// W, "over a whole walk its header is visited at most W times". A file of version 1 has none of its own.
    pub visits: u32,
}

impl LoopRecord {
    /// A loop without W.
    pub fn new(first: u16, last: u16, bound: u32) -> LoopRecord {
        LoopRecord { first, last, bound, visits: NO_LIMIT }
    }

    /// "Version 1 is read as without W".
    fn read(from: &mut &[u8], version: u8) -> Option<LoopRecord> {
        let ([first, last], bound) = (take_array(from)?, take(from)?);
        let visits = if loops_have_w(version) { take(from)? } else { NO_LIMIT };
        Some(LoopRecord { first, last, bound, visits })
    }
}

#[derive(Clone, Debug, Default)]
pub struct Lists {
    pub nodes: Vec<u16>,
    pub edges: Vec<(u16, u16)>,
    pub loops: Vec<LoopRecord>,
}

impl Lists {
    pub fn read(layout: &Layout) -> Lists {
        let mut lists = Lists::default();
        let (mut nodes, mut edges, mut loops) = (layout.nodes, layout.edges, layout.loops);
        lists.nodes = take_list(&mut nodes, layout.nodes.len() / 2).unwrap_or_default();
        while let (Some(from), Some(to)) = (take(&mut edges), take(&mut edges)) {
            lists.edges.push((from, to));
        }
        lists.loops = std::iter::from_fn(|| LoopRecord::read(&mut loops, layout.version)).collect();
        lists
    }
}

#[derive(Clone, Debug)]
pub struct FactRecord {
    pub scope: u16,
    pub block: u16,
    pub limit: u16,
    pub rows: Vec<RowRecord>,
}

impl FactRecord {
    /// "facts (16-bit loop number or 65,535 for the whole graph, 16-bit block, 16-bit l, then 16 bytes a row)"
    pub fn size(&self) -> usize {
        6 + 16 * self.rows.len()
    }
}

#[derive(Clone, Debug, Default)]
pub struct Draft {
    pub version: u8,
    pub policy: u8,
    pub ways: u8,
    pub sets: u8,
    pub lists: Lists,
    pub facts: Vec<FactRecord>,
}

impl Draft {
    /// Reads a file's lists for a person to look at, facts as far as they go. Only rules 1 to 5 must hold.
    pub fn skim(file: &[u8]) -> Result<Draft, Refusal> {
        let layout = read_layout(file)?;
        let Layout { version, geometry, .. } = layout;
        let [policy, ways, sets] = [geometry.shape.policy as u8, geometry.shape.ways as u8, geometry.sets as u8];
        let lists = Lists::read(&layout);
        let mut rest = layout.rest;
        let facts = (0..layout.facts).map_while(|_| skim_fact(&mut rest, &lists)).collect();
        Ok(Draft { version, policy, ways, sets, lists, facts })
    }

    /// Where edges, loops and facts begin, one section after the other.
    fn starts(&self) -> [usize; 3] {
        let Lists { nodes, edges, loops } = &self.lists;
        let [node, edge, a_loop] = sizes(self.version);
        let edges_start = node * nodes.len();
        let loops_start = edges_start + edge * edges.len();
        [edges_start, loops_start, loops_start + a_loop * loops.len()]
    }

    /// Where the facts begin.
    pub fn facts_start(&self) -> usize {
        self.starts()[2]
    }

    /// Where fact i begins, or would begin behind the last one.
    pub fn fact_start(&self, i: usize) -> usize {
        self.facts_start() + self.facts[..i].iter().map(FactRecord::size).sum::<usize>()
    }

    /// "Sections in order, without gaps, from offset 0"; "The last 32 bytes point back".
    pub fn write(&self) -> Vec<u8> {
        let Lists { nodes, edges, loops } = &self.lists;
        let mut out = Vec::new();
        put_list(nodes, &mut out);
        for &(from, to) in edges {
            put_list(&[from, to], &mut out);
        }
        for record in loops {
            put_list(&[record.first, record.last], &mut out);
            record.bound.put(&mut out);
            if loops_have_w(self.version) {
                record.visits.put(&mut out);
            }
        }
        for fact in &self.facts {
            put_list(&[fact.scope, fact.block, fact.limit], &mut out);
            fact.rows.iter().for_each(|row| put_list(row, &mut out));
        }
        self.write_trailer(&mut out);
        out
    }

    /// "four 32-bit offsets (nodes, edges, loops, facts); 16-bit numbers of nodes, edges, loops, facts; policy, ways,
    /// sets, version, one byte each; then the four letters QMBT."
    fn write_trailer(&self, out: &mut Vec<u8>) {
        let Lists { nodes, edges, loops } = &self.lists;
        let offsets = self.starts().map(|offset| offset as u32);
        0u32.put(out);
        put_list(&offsets, out);
        put_list(&[nodes.len(), edges.len(), loops.len(), self.facts.len()].map(|number| number as u16), out);
        put_list(&[self.policy, self.ways, self.sets, self.version], out);
        out.extend_from_slice(b"QMBT");
    }
}

fn skim_fact(rest: &mut &[u8], lists: &Lists) -> Option<FactRecord> {
    let [scope, block, limit] = take_array(rest)?;
    let size = match lists.loops.get(usize::from(scope)) {
        _ if scope == WHOLE_GRAPH => lists.nodes.len(),
        Some(record) => usize::from(record.last.saturating_sub(record.first)) + 1,
        None => 0,
    };
    Some(FactRecord { scope, block, limit, rows: (0..size).map_while(|_| take_array(rest)).collect() })
}
