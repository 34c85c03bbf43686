//! The finder: "the smallest age limit up to k for which evidence exists, with the rows"; "It answers "none" exactly when
//! no limit up to k has acceptable evidence."

mod rows;
mod seen;

use super::again::Again;
use super::evidence::{records, with_fact, Named};
use super::gathering::gather;
use super::{borders, Comparison, Settings};
use crate::case::{judge, search, Draft, Found, Gathered, Graph, Paper, Scope, NUMBERS, ROW_NUMBERS, WHOLE_GRAPH};
use crate::generate::cases::{sound, Plan};
use crate::generate::damage::{damage, FOUND, RULES};
use crate::generate::interruptions;
use crate::machine::{Geometry, NONE};
use crate::pipe::{Pipe, Request};
use crate::random::Random;
use crate::show;
use seen::Seen;
use std::collections::BTreeSet;

/// How often each refusal must be seen.
const AT_LEAST: u64 = 50;

struct Finding<'a> {
    requests: Comparison<'a>,
    files: Again<'a>,
    seen: Seen,
}

pub fn run(pipe: &Pipe, settings: &Settings) -> Result<(), String> {
    let mut random = Random::for_part(settings.seed, "finds");
    let files = Again::new(pipe, settings.library.as_ref());
    let mut finding = Finding { requests: Comparison::new(pipe), files, seen: Seen::default() };
    for draft in borders::drafts() {
        finding.ask_any(&mut random, &draft, draft.write())?;
    }
    for turn in 0..settings.searched {
        finding.search_small(&mut random)?;
        (3 * turn..3 * turn + 3).try_for_each(|turn| finding.damaged(&mut random, turn))?;
        if turn % 10 == 0 {
            finding.search_deep(&mut random)?;
        }
    }
    let Finding { mut requests, files, seen } = finding;
    requests.flush()?;
    seen.report(settings.searched);
    println!("finds by refusal:\n{}", requests.tally.table(7));
    println!("files with facts that were found, and with limits too small, by refusal:\n{}", requests.tally.table(5));
    seen.demand(AT_LEAST / 5)?;
    requests.tally.demand(7, FOUND.into_iter().chain([0]), AT_LEAST)?;
    files.finish()
}

/// All scopes and the blocks that are fetched in them.
fn questions(graph: &Graph) -> Vec<(Scope, u16)> {
    let fetched = |scope| graph.scope_nodes(scope).filter_map(|node| graph.blocks[node]).collect::<BTreeSet<u16>>();
    graph.scopes().into_iter().flat_map(|scope| fetched(scope).into_iter().map(move |block| (scope, block))).collect()
}

/// The finder does not look at the facts: they may be any.
fn with_any_facts(random: &mut Random, draft: &Draft) -> Vec<u8> {
    let rule = random.pick(&[11, 12, 13, 14, 15, 16, 17, 18, 19, 24, 25]);
    if random.chance(50) {
        return draft.write();
    }
    damage(random, draft, &[rule]).0
}

impl Finding<'_> {
    /// Every block in every scope of a small graph. What is found is held to the walks themselves.
    fn search_small(&mut self, random: &mut Random) -> Result<(), String> {
        let plan = Plan::searched(random);
        let draft = sound(random, &plan, &Paper);
        let file = with_any_facts(random, &draft);
        let graph = Graph::new(&draft.lists);
        let geometry = Geometry::read(draft.policy, draft.ways, draft.sets).expect("the plan's machine is in range");
        for (scope, block) in questions(&graph) {
            let found = self.ask(random, &draft, &file, (scope, block))?;
            let gathered = gather(geometry, &graph, scope, block);
            let limit = gathered.least_limit(&graph, geometry.shape.ways);
            if found != limit.map(|limit| (limit, records(&gathered.rows(limit)))) {
                return Err(format!("walks gather otherwise\n{}", show::file(&file)));
            }
            let too_small = limit.map_or(geometry.shape.ways, |limit| limit - 1);
            self.too_small(random, &draft, (scope, block, too_small), &gathered)?;
            self.seen.add_scope(&graph, scope);
        }
        self.files.add(&file)
    }

    /// Some questions about larger graphs with loops within loops.
    fn search_deep(&mut self, random: &mut Random) -> Result<(), String> {
        let nodes = random.within(30..=150);
        let plan = if random.chance(5) { Plan::large(random) } else { Plan { nodes, depth: 8, ..Plan::any(random) } };
        let draft = sound(random, &plan, &Paper);
        let file = with_any_facts(random, &draft);
        let all = questions(&Graph::new(&draft.lists));
        for _ in 0..random.within(1..=6).min(all.len()) {
            let question = random.pick(&all);
            self.ask(random, &draft, &file, question)?;
        }
        self.files.add(&file)
    }

    /// Asks, and has the fact that is found written into a file, which must be accepted.
    fn ask(&mut self, random: &mut Random, draft: &Draft, file: &[u8], asked: (Scope, u16)) -> Result<Found, String> {
        let (scope, block) = asked;
        let nodes = Graph::new(&draft.lists).scope_nodes(scope).count();
        let lent = ROW_NUMBERS * nodes + random.pick(&[0, 0, 1, 8, 40]);
        let rows = random.noise(lent, |number| number as u16);
        self.requests.add(Request::Find { file: file.to_vec(), scope: scope.number(), block, rows })?;
        let found = search(file, scope.number(), block, lent).map_err(|refusal| {
            format!("scope {scope:?}, block {block}: {}\n{}", show::verdict(Some(refusal)), show::file(file))
        })?;
        self.seen.add(&found);
        if let Some((limit, rows)) = &found {
            self.try_file(random, with_fact(draft, (scope, block, *limit), rows.clone()).write(), true)?;
        }
        Ok(found)
    }

    /// Checks the file, which must be accepted or refused for its evidence, and has it written again.
    fn try_file(&mut self, random: &mut Random, file: Vec<u8>, accepted: bool) -> Result<(), String> {
        let refusal = judge(&file, &Paper).err();
        let as_due = match refusal {
            None => accepted,
            Some(refusal) => !accepted && matches!(refusal.number, 16..=18 | 24 | 25),
        };
        if !as_due {
            return Err(format!("{}\n{}", show::verdict(refusal), show::file(&file)));
        }
        self.files.add(&file)?;
        self.requests.add(Request::Check { interruptions: interruptions(random), file, numbers: vec![1; NUMBERS] })
    }

    /// With a limit that is too small no rows are accepted: not the exact ones, and where there are few ways to fill the
    /// rows, none at all.
    fn too_small(
        &mut self,
        random: &mut Random,
        draft: &Draft,
        fact: Named,
        gathered: &Gathered,
    ) -> Result<(), String> {
        let (_, _, limit) = fact;
        if limit == 0 {
            return Ok(());
        }
        self.seen.too_small += 1;
        self.try_file(random, with_fact(draft, fact, records(&gathered.rows(limit))).write(), false)?;
        let all = rows::all(gathered, limit).filter(|_| random.chance(30));
        self.seen.all_rows += u64::from(all.is_some());
        let mut all = all.into_iter().flatten();
        all.try_for_each(|rows| self.try_file(random, with_fact(draft, fact, rows).write(), false))
    }

    /// Files with faults, and questions that cannot be asked, one at a time or several so that their order shows.
    fn damaged(&mut self, random: &mut Random, turn: usize) -> Result<(), String> {
        let plan = Plan::roomy(random);
        let draft = sound(random, &plan, &Paper);
        let of_graph: Vec<u8> = FOUND.into_iter().filter(|&rule| rule <= 10 || rule == 26).collect();
        let mut rules = vec![of_graph[turn % of_graph.len()], random.pick(&RULES)];
        rules.dedup();
        rules.truncate(random.below(3));
        let file = damage(random, &draft, &rules).0;
        self.ask_any(random, &draft, file)
    }

    /// Asks what may have no answer, often with too little room.
    fn ask_any(&mut self, random: &mut Random, draft: &Draft, file: Vec<u8>) -> Result<(), String> {
        let Draft { lists, .. } = draft;
        let loops = lists.loops.len() as u16;
        let inside = random.below(loops.into()) as u16;
        let scope = random.pick(&[inside, inside, WHOLE_GRAPH, loops, loops + 1, WHOLE_GRAPH - 1]);
        let fetched = lists.nodes.get(random.below(lists.nodes.len())).copied().unwrap_or(0);
        let any = random.word();
        let block = random.pick(&[fetched, fetched, fetched, fetched ^ 1, any, NONE]);
        let inside = lists.loops.get(usize::from(scope)).map(|record| record.last.saturating_sub(record.first) + 1);
        let all = ROW_NUMBERS * inside.map_or(lists.nodes.len(), usize::from);
        let lent = random.pick(&[all, all + 9, all.saturating_sub(1), all.saturating_sub(8), all / 2, 0]);
        let rows = random.noise(lent, |number| number as u16);
        self.files.add(&file)?;
        self.requests.add(Request::Find { file, scope, block, rows })
    }
}
