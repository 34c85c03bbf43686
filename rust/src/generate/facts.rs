//! Facts that stand, with evidence that is exact or larger than needed.

use super::evidence::Question;
use crate::case::{FactRecord, Graph, Row, Rules};
use crate::machine::{Geometry, NONE};
use crate::random::Random;
use std::collections::BTreeSet;

/// Facts in the order of rule 13: blocks rising, and for one block scopes that lie apart, from left to right.
pub fn facts(
    random: &mut Random,
    geometry: Geometry,
    graph: &Graph,
    rules: &dyn Rules,
    rows_at_most: usize,
) -> Vec<FactRecord> {
    let blocks: BTreeSet<u16> = graph.blocks.iter().flatten().copied().collect();
    let mut facts = Vec::new();
    let mut rows = 0;
    for block in blocks {
        let mut free_from = 0;
        for scope in graph.scopes() {
            let nodes = graph.scope_nodes(scope);
            let wanted = random.chance(50) && *nodes.start() >= free_from && rows < rows_at_most && facts.len() < 256;
            let question = Question { geometry, graph, rules, scope, block };
            if let Some(fact) = wanted.then(|| fact(random, &question)).flatten() {
                free_from = nodes.end() + 1;
                rows += fact.rows.len();
                facts.push(fact);
            }
        }
    }
    facts
}

/// A fact for the question, if one stands.
pub fn fact(random: &mut Random, question: &Question) -> Option<FactRecord> {
    question.graph.fetchers(question.scope, question.block).next()?;
    let (least, ways) = (question.least_limit()?, question.geometry.shape.ways);
    if least > ways {
        return None;
    }
    let limit = if random.chance(50) { least } else { random.within(least..=ways) };
    let exact = question.least_rows(limit);
    let tries = random.pick(&[0, 6]);
    let larger = (0..tries).map(|_| larger_rows(random, question, limit, &exact));
    let passing = larger.into_iter().find(|rows| *rows != exact && question.passes(rows));
    let rows = passing.unwrap_or(exact).iter().map(Row::record).collect();
    Some(FactRecord { scope: question.scope.number(), block: question.block, limit: limit as u16, rows })
}

/// Rows with more in them than must be: extra blocks of b's set, sets or 8 in place of 9, 8 in place of sets.
fn larger_rows(random: &mut Random, question: &Question, limit: usize, exact: &[Row]) -> Vec<Row> {
    let mut seeds = exact.to_vec();
    for _ in 0..random.within(1..=3) {
        let seed = random.below(seeds.len());
        seeds[seed] = match &seeds[seed] {
            _ if random.chance(30) => Row::Many,
            Row::NotSince => Row::Blocks(BTreeSet::new()),
            Row::Blocks(held) if held.len() + 1 < limit => {
                Row::Blocks(held.iter().copied().chain(extra_block(random, question)).collect())
            }
            other => other.clone(),
        };
    }
    question.close(limit, seeds)
}

/// A block of b's set other than b, fetched anywhere or not.
fn extra_block(random: &mut Random, question: &Question) -> Option<u16> {
    let sets = usize::from(question.geometry.sets);
    let near = random.chance(80);
    let turns = if near { 4 } else { usize::from(NONE) / sets };
    let other = question.geometry.set_of(question.block) + sets * random.below(turns);
    let other = u16::try_from(other).ok().filter(|&other| other != NONE);
    other.filter(|&other| other != question.block)
}
