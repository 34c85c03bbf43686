//! Evidence exists exactly when it should: on small graphs, for each block, scope and limit.

use super::again::Again;
use super::gathering::gather;
use super::{agree, Settings};
use crate::case::{Draft, FactRecord, Gathered, Graph, Lists, Row, RowRecord, Scope, NUMBERS};
use crate::generate::cases::{sound, Plan};
use crate::generate::interruptions;
use crate::machine::Geometry;
use crate::pipe::{Pipe, Request};
use crate::random::Random;
use crate::refusal::Refusal;
use crate::show;
use std::collections::{BTreeMap, BTreeSet};

/// How many graphs go into one conversation.
const TOGETHER: usize = 40;

/// "A fact names a scope, a block b and an age limit l."
pub type Named = (Scope, u16, usize);

/// Why a file is tried, and so what `check` must say.
#[derive(Clone, Copy, Debug, PartialEq, Eq, PartialOrd, Ord)]
enum Trial {
    /// Exact rows where few enough gather: accepted.
    Exact,
    /// Exact rows where too many gather at a node that fetches b: 18 at the least such node.
    TooMany,
    /// Accepted rows with one made smaller: an edge to its node misses its rule, by 24 if a fetch of b comes before.
    Shrunk,
    /// Any rows at all where too many gather: refused.
    Hopeless,
}

/// Rows for a fact, by themselves or in a file, why they are tried, and the node where they must fail.
struct Tried<Rows> {
    trial: Trial,
    node: usize,
    rows: Rows,
}

impl<Rows> Tried<Rows> {
    fn with<Others>(self, other: impl FnOnce(Rows) -> Others) -> Tried<Others> {
        Tried { trial: self.trial, node: self.node, rows: other(self.rows) }
    }
}

impl Tried<Draft> {
    fn met_by(&self, refusal: Option<Refusal>) -> bool {
        match (self.trial, refusal) {
            (Trial::Exact, _) => refusal.is_none(),
            (_, None) => false,
            (Trial::TooMany, Some(refusal)) => refusal == Refusal::new(18, 0).at(self.node),
            (Trial::Shrunk, Some(refusal)) => self.shrunk_at(refusal),
            (Trial::Hopeless, Some(refusal)) => matches!(refusal.number, 16..=18 | 24 | 25),
        }
    }

    fn shrunk_at(&self, Refusal { number, place, second }: Refusal) -> bool {
        let Lists { nodes, edges, .. } = &self.rows.lists;
        let (from, to) = edges[second as usize];
        let fetched = nodes[usize::from(from)] == self.rows.facts[0].block;
        let numbers = if fetched { &[24][..] } else { &[17, 25] };
        numbers.contains(&number) && place == 0 && usize::from(to) == self.node
    }
}

pub fn run(pipe: &Pipe, settings: &Settings) -> Result<(), String> {
    let mut random = Random::for_part(settings.seed, "evidence");
    let mut again = Again::new(pipe, settings.library.as_ref());
    let mut counts = BTreeMap::new();
    let mut left = settings.graphs;
    while left > 0 {
        let graphs = left.min(TOGETHER);
        let trials: Vec<Tried<Draft>> = (0..graphs).flat_map(|_| trials(&mut random)).collect();
        trials.iter().try_for_each(|tried| again.add(&tried.rows.write()))?;
        try_all(&mut random, pipe, &trials, &mut counts)?;
        left -= graphs;
    }
    println!("evidence on {} graphs: {counts:?}", settings.graphs);
    let all = [Trial::Exact, Trial::TooMany, Trial::Shrunk, Trial::Hopeless];
    match all.iter().find(|trial| counts.get(trial).copied().unwrap_or(0) == 0) {
        Some(trial) => Err(format!("no trial of kind {trial:?}")),
        None => again.finish(),
    }
}

fn try_all(
    random: &mut Random,
    pipe: &Pipe,
    trials: &[Tried<Draft>],
    counts: &mut BTreeMap<Trial, u64>,
) -> Result<(), String> {
    let check = |tried: &Tried<Draft>| Request::Check {
        interruptions: interruptions(random),
        file: tried.rows.write(),
        numbers: vec![1; NUMBERS],
    };
    let requests: Vec<Request> = trials.iter().map(check).collect();
    let answers = agree(pipe, &requests)?;
    for (tried, answer) in trials.iter().zip(answers) {
        if !tried.met_by(answer.refusal) {
            let file = show::file(&tried.rows.write());
            return Err(format!("{:?} at node {} gave {:?}\n{file}", tried.trial, tried.node, answer.refusal));
        }
        *counts.entry(tried.trial).or_default() += 1;
    }
    Ok(())
}

/// A graph, each time with one fact for each block, scope and limit, and its rows in all the ways that are tried.
fn trials(random: &mut Random) -> Vec<Tried<Draft>> {
    let plan = Plan { nodes: random.within(1..=9), rows: 0, ..Plan::small(random) };
    let draft = sound(random, &plan, &crate::case::Paper);
    let geometry = Geometry::read(draft.policy, draft.ways, draft.sets).expect("the plan's machine is in range");
    let graph = Graph::new(&draft.lists);
    let blocks: BTreeSet<u16> = graph.blocks.iter().flatten().copied().collect();
    let mut trials = Vec::new();
    for (scope, block) in graph.scopes().into_iter().flat_map(|scope| blocks.iter().map(move |&block| (scope, block))) {
        if graph.fetchers(scope, block).next().is_none() {
            continue;
        }
        let gathered = gather(geometry, &graph, scope, block);
        for limit in 1..=geometry.shape.ways {
            let fact = (scope, block, limit);
            let rows = rows_to_try(random, &graph, fact, &gathered).into_iter();
            trials.extend(rows.map(|tried| tried.with(|rows| with_fact(&draft, fact, records(&rows)))));
        }
    }
    trials
}

pub fn records(rows: &[Row]) -> Vec<RowRecord> {
    rows.iter().map(Row::record).collect()
}

/// The graph with this one fact.
pub fn with_fact(draft: &Draft, (scope, block, limit): Named, rows: Vec<RowRecord>) -> Draft {
    Draft { facts: vec![FactRecord { scope: scope.number(), block, limit: limit as u16, rows }], ..draft.clone() }
}

/// The rows to try for one fact.
fn rows_to_try(random: &mut Random, graph: &Graph, fact: Named, gathered: &Gathered) -> Vec<Tried<Vec<Row>>> {
    let (scope, _, limit) = fact;
    let first = *graph.scope_nodes(scope).start();
    let exact = gathered.rows(limit);
    let Some(node) = gathered.too_many(graph, limit) else {
        let smaller = (0..exact.len()).flat_map(|place| smaller_rows(gathered, limit, place));
        let shrunk = smaller.map(|(place, row)| {
            let mut rows = exact.clone();
            rows[place] = row;
            Tried { trial: Trial::Shrunk, node: first + place, rows }
        });
        return shrunk.chain([Tried { trial: Trial::Exact, node: first, rows: exact.clone() }]).collect();
    };
    let hopeless = (0..3).map(|_| {
        let rows = exact.iter().map(|row| any_row(random, row, limit)).collect();
        Tried { trial: Trial::Hopeless, node, rows }
    });
    hopeless.chain([Tried { trial: Trial::TooMany, node, rows: exact.clone() }]).collect()
}

/// Every way to make a row say less than what gathers there: one block fewer, too few blocks for "many", or 9.
fn smaller_rows(gathered: &Gathered, limit: usize, place: usize) -> Vec<(usize, Row)> {
    let Some(blocks) = &gathered.at[place] else { return Vec::new() };
    let mut smaller = vec![Row::NotSince];
    if blocks.len() >= limit {
        smaller.push(Row::Blocks(blocks.iter().copied().take(limit - 1).collect()));
        smaller.push(Row::Blocks(blocks.iter().rev().copied().take(limit - 1).collect()));
    } else {
        smaller.extend(
            blocks.iter().map(|lost| Row::Blocks(blocks.iter().copied().filter(|block| block != lost).collect())),
        );
    }
    smaller.into_iter().map(|row| (place, row)).collect()
}

/// A row of any kind, near the exact one.
fn any_row(random: &mut Random, exact: &Row, limit: usize) -> Row {
    match (random.below(4), exact) {
        (0, _) => Row::NotSince,
        (1, Row::Blocks(blocks)) => Row::Blocks(blocks.iter().copied().take(random.below(limit)).collect()),
        (2, _) => Row::Blocks(BTreeSet::new()),
        _ => exact.clone(),
    }
}
