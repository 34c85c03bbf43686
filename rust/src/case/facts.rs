//! Facts and their evidence: rules 11 to 18, with 24 and 25 beside 17, for each fact in turn, then 19.

use super::layout::Layout;
use super::{Graph, Row, RowRecord, Rules, Scope};
use crate::bytes::take_array;
use crate::machine::{block_or_none, Geometry};
use crate::refusal::{demand, Refusal};
use std::collections::BTreeSet;

/// "A fact names a scope, a block b and an age limit l from 1 to k."
#[derive(Clone, Debug)]
pub struct Fact {
    pub scope: Scope,
    pub block: u16,
    pub limit: usize,
    /// One for each node of the scope, in order.
    pub rows: Vec<Row>,
}

/// Against what a fact is judged.
pub struct Ground<'a> {
    pub geometry: Geometry,
    pub graph: &'a Graph,
    pub rules: &'a dyn Rules,
}

/// The facts of a file, if all of them stand and nothing is left behind the last.
pub fn read_facts(layout: &Layout, ground: &Ground) -> Result<Vec<Fact>, Refusal> {
    let mut rest = layout.rest;
    let mut facts: Vec<Fact> = Vec::new();
    for place in 0..layout.facts {
        let fact = read_fact(&mut rest, place, facts.last(), ground)?;
        facts.push(fact);
    }
    demand(19, rest.is_empty())?;
    Ok(facts)
}

/// One fact, or the first rule that it breaks.
pub fn read_fact(rest: &mut &[u8], place: usize, previous: Option<&Fact>, ground: &Ground) -> Result<Fact, Refusal> {
    let refuse = |number| Refusal::new(number, place);
    let head = take_array(rest).ok_or(refuse(11))?;
    let mut fact = ground.take_turn(place, previous, head)?;
    ground.graph.fetchers(fact.scope, fact.block).next().ok_or(refuse(14))?;
    let rows = take_rows(rest, ground.size(&fact)).ok_or(refuse(15))?;
    fact.rows = ground.sound_rows(place, &fact, &rows)?;
    let broken = ground.broken(&fact).next();
    broken.map_or(Ok(fact), |(number, second)| Err(refuse(number).at(second)))
}

pub fn take_rows(rest: &mut &[u8], size: usize) -> Option<Vec<RowRecord>> {
    (0..size).map(|_| take_array(rest)).collect()
}

impl Ground<'_> {
    /// Rules 12 and 13: the head of the fact at this place. The rows come later.
    pub fn take_turn(&self, place: usize, previous: Option<&Fact>, head: [u16; 3]) -> Result<Fact, Refusal> {
        let fact = self.read_head(head).ok_or(Refusal::new(12, place))?;
        let behind = previous.is_none_or(|before| !self.out_of_order(before, &fact));
        behind.then_some(fact).ok_or(Refusal::new(13, place))
    }

    /// How many nodes the fact's scope has.
    pub fn size(&self, fact: &Fact) -> usize {
        self.graph.scope_nodes(fact.scope).count()
    }

    /// Rule 16: the rows of the fact at this place.
    pub fn sound_rows(&self, place: usize, fact: &Fact, records: &[RowRecord]) -> Result<Vec<Row>, Refusal> {
        self.read_rows(fact, records).map_err(|node| Refusal::new(16, place).at(node))
    }

    /// Rule 12: "its loop number, block or l out of range".
    pub fn read_head(&self, [scope, block, limit]: [u16; 3]) -> Option<Fact> {
        let limit = usize::from(limit);
        let in_range = (1..=self.geometry.shape.ways).contains(&limit);
        let fact = Fact { scope: self.graph.scope(scope)?, block: block_or_none(block)?, limit, rows: Vec::new() };
        in_range.then_some(fact)
    }

    /// "block below the previous fact's, or equal and its scope starts at or before the previous scope's last node"
    fn out_of_order(&self, before: &Fact, fact: &Fact) -> bool {
        let first = *self.graph.scope_nodes(fact.scope).start();
        let last_before = *self.graph.scope_nodes(before.scope).end();
        (fact.block, first) <= (before.block, last_before)
    }

    /// Each node of the scope, and its row where that is sound.
    pub fn rows<'f>(
        &'f self,
        fact: &'f Fact,
        records: &'f [RowRecord],
    ) -> impl Iterator<Item = (usize, Option<Row>)> + 'f {
        let sound = |row: &Row| row.sound(fact.limit, fact.block, self.geometry.sets);
        let nodes = self.graph.scope_nodes(fact.scope);
        nodes.zip(records.iter().map(move |record| Row::read(record).filter(sound)))
    }

    /// The rows, or the least node whose row is not sound.
    pub fn read_rows(&self, fact: &Fact, records: &[RowRecord]) -> Result<Vec<Row>, usize> {
        self.rows(fact, records).map(|(node, row)| row.ok_or(node)).collect()
    }

    /// The row of a node of the fact's scope.
    fn row<'f>(&self, fact: &'f Fact, node: usize) -> &'f Row {
        &fact.rows[node - self.graph.scope_nodes(fact.scope).start()]
    }

    /// What is wrong with rows that are sound each by itself, in the order in which it is told: each edge that misses its
    /// rule with 17, 24 or 25 and the edge's number; then, as "no node that fetches b has row 8", 18 and the node's.
    pub fn broken<'f>(&'f self, fact: &'f Fact) -> impl Iterator<Item = (u8, usize)> + 'f {
        let edges = self.graph.numbered_edges(fact.scope);
        let missed = edges.filter_map(|(edge, ends)| Some((self.edge_misses(fact, ends)?, edge)));
        let fetchers = self.graph.fetchers(fact.scope, fact.block);
        missed.chain(fetchers.filter(|&node| *self.row(fact, node) == Row::Many).map(|node| (18, node)))
    }

    /// "17 is kept for a set followed by 9 or by a set that lacks a block, 24 for "not since b" after a fetch of b, 25 for
    /// "many" followed by anything else". A fetch of b comes first: what u's row says no longer counts then.
    fn edge_misses(&self, fact: &Fact, (u, v): (usize, usize)) -> Option<u8> {
        let fetched = self.graph.blocks[u];
        let before = Some(self.row(fact, u)).filter(|_| fetched != Some(fact.block));
        match (before, self.row(fact, v)) {
            (None, Row::NotSince) => Some(24),
            (None | Some(Row::NotSince), _) | (_, Row::Many) => None,
            (Some(Row::Many), _) => Some(25),
            (Some(Row::Blocks(held)), Row::Blocks(after)) if self.needed(fact, held, fetched).is_subset(after) => None,
            (Some(Row::Blocks(_)), _) => Some(17),
        }
    }

    fn needed(&self, fact: &Fact, held: &BTreeSet<u16>, fetched: Option<u16>) -> BTreeSet<u16> {
        let own = fetched.filter(|&block| self.geometry.set_of(block) == self.geometry.set_of(fact.block));
        self.rules.passed_on(held, own)
    }
}
