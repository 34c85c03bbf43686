//! "The graph and its walks": nodes, edges and loops, and for each node the set of the loops around it.

use super::draft::{Lists, LoopRecord};
use super::{LARGEST_COUNT, NO_LIMIT, WHOLE_GRAPH};
use crate::machine::block_or_none;
use std::collections::{BTreeMap, BTreeSet};
use std::ops::RangeInclusive;

/// "A loop is a range of nodes, first to last, with a bound B."
#[derive(Clone, Copy, Debug)]
pub struct Loop {
    pub first: usize,
    pub last: usize,
    pub bound: u128,
    /// W, where there is one: "over a whole walk its header is visited at most W times".
    pub visits: Option<u128>,
}

impl Loop {
    fn read(record: &LoopRecord) -> Loop {
        let visits = Some(record.visits.into()).filter(|_| record.visits != NO_LIMIT);
        Loop { first: record.first.into(), last: record.last.into(), bound: record.bound.into(), visits }
    }

    /// "Its first node is its header."
    pub fn header(&self) -> usize {
        self.first
    }

    pub fn nodes(&self) -> RangeInclusive<usize> {
        self.first..=self.last
    }
}

/// "a scope (a loop, or the whole graph with one entry)"
#[derive(Clone, Copy, Debug, PartialEq)]
pub enum Scope {
    Whole,
    Loop(usize),
}

impl Scope {
    /// The scope as the file writes it.
    pub fn number(self) -> u16 {
        match self {
            Scope::Whole => WHOLE_GRAPH,
            Scope::Loop(i) => i as u16,
        }
    }
}

pub struct Graph {
    /// The block that each node fetches, if any.
    pub blocks: Vec<Option<u16>>,
    pub edges: Vec<(usize, usize)>,
    pub loops: Vec<Loop>,
    /// For each node, the loops that contain it.
    around: Vec<BTreeSet<usize>>,
    /// For each header, its loop.
    by_header: BTreeMap<usize, usize>,
}

impl Graph {
    /// Takes lists that keep rules 6 and 7.
    pub fn new(lists: &Lists) -> Graph {
        let loops: Vec<Loop> = lists.loops.iter().map(Loop::read).collect();
        let mut around = vec![BTreeSet::new(); lists.nodes.len()];
        for (i, l) in loops.iter().enumerate() {
            for node in l.nodes() {
                around[node].insert(i);
            }
        }
        Graph {
            blocks: lists.nodes.iter().map(|&number| block_or_none(number)).collect(),
            edges: lists.edges.iter().map(|&(u, v)| (u.into(), v.into())).collect(),
            by_header: loops.iter().enumerate().map(|(i, l)| (l.header(), i)).collect(),
            loops,
            around,
        }
    }

    pub fn loops_around(&self, node: usize) -> &BTreeSet<usize> {
        &self.around[node]
    }

    /// The loop that has this node as its header.
    pub fn loop_of_header(&self, node: usize) -> Option<usize> {
        self.by_header.get(&node).copied()
    }

    /// "An edge u to v with u < v may enter a loop only at its header."
    pub fn enters_beside_header(&self, u: usize, v: usize) -> bool {
        let mut entered = self.around[v].difference(&self.around[u]);
        u < v && entered.any(|&i| self.loops[i].header() != v)
    }

    /// "With u >= v, v must be the header of a loop that contains u."
    pub fn returns_to_no_header(&self, u: usize, v: usize) -> bool {
        let returns_well = self.loop_of_header(v).is_some_and(|i| self.around[u].contains(&i));
        u >= v && !returns_well
    }

    /// The nodes that edges lead to from node 0, over any number of edges, whichever way they go; and node 0.
    pub fn reached(&self) -> BTreeSet<usize> {
        let mut reached = BTreeSet::from([0]);
        let mut last_found = reached.clone();
        while !last_found.is_empty() {
            let ends = self.edges.iter().filter(|(u, _)| last_found.contains(u)).map(|&(_, v)| v);
            last_found = ends.filter(|v| !reached.contains(v)).collect();
            reached.extend(&last_found);
        }
        reached
    }

    /// "A loop's header visits are the lesser of W and B times the header visits of the next loop out (1 outside all
    /// loops)": those of the last of these loops, which are handed outermost first. Written out, that is the least of the
    /// product of all B and, for each W, the product of it and the B of the loops further in.
    pub fn header_visits(&self, nest: &[usize]) -> u128 {
        let product = |inner: &[usize]| inner.iter().fold(1, |all: u128, &i| all.saturating_mul(self.loops[i].bound));
        let from = |at: usize| Some(self.loops[nest[at]].visits?.saturating_mul(product(&nest[at + 1..])));
        (0..nest.len()).filter_map(from).fold(product(nest), u128::min)
    }

    /// "a node's count is the header visits of its innermost loop". None where it passes the largest count.
    pub fn count(&self, node: usize) -> Option<u128> {
        let nest: Vec<usize> = self.around[node].iter().copied().collect();
        Some(self.header_visits(&nest)).filter(|&count| count <= LARGEST_COUNT)
    }

    /// The loops strictly around a scope, outermost first.
    pub fn strictly_around(&self, scope: Scope) -> Vec<usize> {
        match scope {
            Scope::Whole => Vec::new(),
            Scope::Loop(i) => self.around[self.loops[i].header()].iter().copied().filter(|&j| j != i).collect(),
        }
    }

    /// The outermost loop inside a scope, and not the scope itself, that has the node.
    pub fn directly_inside(&self, scope: Scope, node: usize) -> Option<usize> {
        let outside = match scope {
            Scope::Whole => None,
            Scope::Loop(i) => Some(i),
        };
        // Loops are numbered by their headers, so those inside a loop come after it, the outermost first.
        self.around[node].iter().copied().find(|&i| Some(i) > outside)
    }

    pub fn scope(&self, number: u16) -> Option<Scope> {
        match usize::from(number) {
            _ if number == WHOLE_GRAPH => Some(Scope::Whole),
            i => (i < self.loops.len()).then_some(Scope::Loop(i)),
        }
    }

    /// All scopes that a fact may have: the whole graph and every loop.
    pub fn scopes(&self) -> Vec<Scope> {
        let loops = (0..self.loops.len()).map(Scope::Loop);
        std::iter::once(Scope::Whole).chain(loops).collect()
    }

    pub fn scope_nodes(&self, scope: Scope) -> RangeInclusive<usize> {
        match scope {
            Scope::Whole => 0..=self.blocks.len() - 1,
            Scope::Loop(i) => self.loops[i].nodes(),
        }
    }

    /// The edges with both ends in the scope, each with its number in the file.
    pub fn numbered_edges(&self, scope: Scope) -> impl Iterator<Item = (usize, (usize, usize))> + '_ {
        let nodes = self.scope_nodes(scope);
        let all = self.edges.iter().copied().enumerate();
        all.filter(move |(_, (u, v))| nodes.contains(u) && nodes.contains(v))
    }

    /// The edges with both ends in the scope.
    pub fn scope_edges(&self, scope: Scope) -> impl Iterator<Item = (usize, usize)> + '_ {
        self.numbered_edges(scope).map(|(_, edge)| edge)
    }

    /// The nodes of the scope that fetch the block.
    pub fn fetchers(&self, scope: Scope, block: u16) -> impl Iterator<Item = usize> + '_ {
        self.scope_nodes(scope).filter(move |&node| self.blocks[node] == Some(block))
    }
}
