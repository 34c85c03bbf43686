//! Item 4 of the requests, "Write the file from lists": what the writer is handed, and what a file is read back as. Since
//! item 7 "The writer is handed the version with the lists, and version 1 content carries no W."

use super::layout::{loops_have_w, Numbers, LARGEST};
use super::{Draft, FactRecord, Lists, LoopRecord, NO_LIMIT};

/// "nodes, edges, loops and facts in", each a plain list of numbers.
#[derive(Clone, Debug, Default, PartialEq)]
pub struct Content {
    pub version: u8,
    pub policy: u8,
    pub ways: u8,
    pub sets: u8,
    pub nodes: Vec<u16>,
    /// Two numbers an edge: from and to.
    pub edges: Vec<u16>,
    /// Three a loop: first, last and B; in version 2 four, with W.
    pub loops: Vec<u32>,
    /// Four a fact: scope, block, l, and how many rows it brings.
    pub heads: Vec<u16>,
    /// Eight a row: "A row's content is its number and all seven slots as they stand, free ones too."
    pub rows: Vec<u16>,
}

impl Content {
    pub fn of(draft: &Draft) -> Content {
        let Lists { nodes, edges, loops } = &draft.lists;
        let head = |fact: &FactRecord| [fact.scope, fact.block, fact.limit, fact.rows.len() as u16];
        let rows = draft.facts.iter().flat_map(|fact| &fact.rows);
        let numbers = |l: &LoopRecord| [l.first.into(), l.last.into(), l.bound, l.visits];
        let a_loop = loop_numbers(draft.version);
        Content {
            version: draft.version,
            policy: draft.policy,
            ways: draft.ways,
            sets: draft.sets,
            nodes: nodes.clone(),
            edges: edges.iter().flat_map(|&(from, to)| [from, to]).collect(),
            loops: loops.iter().flat_map(|l| numbers(l).into_iter().take(a_loop)).collect(),
            heads: draft.facts.iter().flat_map(head).collect(),
            rows: rows.flatten().copied().collect(),
        }
    }

    /// The lists as records; None where they are no whole records, or where the rows are not those that the heads name.
    pub fn draft(&self) -> Option<Draft> {
        let mut rows = records::<8, u16>(&self.rows)?.into_iter();
        let edges = records(&self.edges)?.into_iter().map(|[from, to]| (from, to)).collect();
        let loops = if loops_have_w(self.version) {
            records(&self.loops)?.into_iter().map(loop_record).collect()
        } else {
            records(&self.loops)?
                .into_iter()
                .map(|[first, last, bound]| loop_record([first, last, bound, NO_LIMIT]))
                .collect()
        };
        let heads = records(&self.heads)?;
        let named: usize = heads.iter().map(|head: &[u16; 4]| usize::from(head[3])).sum();
        if named != rows.len() {
            return None;
        }
        let fact = |[scope, block, limit, size]: [u16; 4]| FactRecord {
            scope,
            block,
            limit,
            rows: rows.by_ref().take(size.into()).collect(),
        };
        let facts = heads.into_iter().map(fact).collect();
        let lists = Lists { nodes: self.nodes.clone(), edges, loops };
        let Content { version, policy, ways, sets, .. } = *self;
        Some(Draft { version, policy, ways, sets, lists, facts })
    }

    /// How many nodes, edges, loops and facts there are, whole ones.
    pub fn numbers(&self) -> Numbers {
        [self.nodes.len(), self.edges.len() / 2, self.loops.len() / loop_numbers(self.version), self.heads.len() / 4]
    }
}

/// How many numbers a loop has in its list.
pub fn loop_numbers(version: u8) -> usize {
    if loops_have_w(version) {
        4
    } else {
        3
    }
}

/// The list in parts of `N` numbers, if nothing is left over.
fn records<const N: usize, T: Copy>(list: &[T]) -> Option<Vec<[T; N]>> {
    list.chunks(N).map(|part| part.try_into().ok()).collect()
}

/// A number that has not 16 bits is no node, and neither is 65,535: the most nodes are fewer.
fn loop_record([first, last, bound, visits]: [u32; 4]) -> LoopRecord {
    let node = |number: u32| u16::try_from(number).unwrap_or(u16::MAX);
    const { assert!(LARGEST[0] < u16::MAX) };
    LoopRecord { first: node(first), last: node(last), bound, visits }
}
