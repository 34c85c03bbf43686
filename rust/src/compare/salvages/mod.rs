//! The salvage: "One wrong row should not cost a night's analysis." "The result is accepted, holds every kept fact unchanged, has
//! the first file's version, and when the first file was already sound it is the same file."

mod fewer;
mod held;
mod seen;

use super::again::Again;
use super::{borders, Comparison, Settings};
use crate::case::{Apart, Draft, Paper, Salvaged, NUMBERS, TRAILER};
use crate::generate::cases::{sound, Plan};
use crate::generate::damage::{damage, scatter, several, RULES, SALVAGED};
use crate::generate::interruptions;
use crate::pipe::{room, Pipe, Request};
use crate::random::Random;
use crate::show;
pub use fewer::{lowers_nothing, without};
use held::hold;
use seen::Seen;

/// How often each refusal must be seen, and each number with which a fact is dropped.
const AT_LEAST: u64 = 50;
/// One file in so many is cut at every byte.
const CUT: usize = 60;
/// The bytes of a small file.
const SMALL: usize = 700;

struct Salvaging<'a> {
    requests: Comparison<'a>,
    files: Again<'a>,
    seen: Seen,
}

pub fn run(pipe: &Pipe, settings: &Settings) -> Result<(), String> {
    let mut random = Random::for_part(settings.seed, "salvages");
    let files = Again::new(pipe, settings.library.as_ref());
    let mut salvaging = Salvaging { requests: Comparison::new(pipe), files, seen: Seen::default() };
    for draft in borders::drafts() {
        salvaging.add(&mut random, draft.write())?;
    }
    for turn in 0..settings.salvaged {
        let draft = draft(&mut random);
        let file = match turn % 10 {
            0 => sound_file(&mut random, &draft),
            1 => scattered(&mut random, &draft),
            2..=4 => refused(&mut random, &draft, turn / 10 * 3 + turn % 10 - 2),
            _ => several(&mut random, &draft),
        };
        salvaging.files.add(&file)?;
        salvaging.add(&mut random, file)?;
        if turn % CUT == 0 {
            salvaging.cut_everywhere(&mut random)?;
        }
    }
    let Salvaging { mut requests, files, seen } = salvaging;
    requests.flush()?;
    seen.report(settings.salvaged);
    println!("salvages by refusal:\n{}", requests.tally.table(8));
    println!("what was left, and with dropped facts put back, checked:\n{}", requests.tally.table(5));
    seen.demand(AT_LEAST)?;
    requests.tally.demand(8, SALVAGED.into_iter().chain([0]), AT_LEAST)?;
    files.finish()
}

/// A sound file with several facts, as a rule.
fn draft(random: &mut Random) -> Draft {
    let plan = Plan { rows: random.pick(&[30, 90, 200]), ..Plan::roomy(random) };
    let drafts: Vec<Draft> = (0..4).map(|_| sound(random, &plan, &Paper)).collect();
    drafts.into_iter().max_by_key(|draft| draft.facts.len().min(6)).expect("there are four")
}

/// A sound file, or one with stray bytes and no other fault.
fn sound_file(random: &mut Random, draft: &Draft) -> Vec<u8> {
    let strays: &[u8] = if random.chance(30) { &[19] } else { &[] };
    damage(random, draft, strays).0
}

/// Faults without aim among the facts and the trailer's number of them.
fn scattered(random: &mut Random, draft: &Draft) -> Vec<u8> {
    let file = draft.write();
    let (graph, facts) = file.split_at(draft.facts_start());
    let (facts, trailer) = facts.split_at(facts.len() - TRAILER);
    let (mut facts, mut trailer) = (facts.to_vec(), trailer.to_vec());
    if !facts.is_empty() {
        scatter(random, &mut facts);
    }
    if random.chance(20) {
        trailer[22] = trailer[22].wrapping_add(random.pick(&[1, 3, 255, 254]));
    }
    [graph, &facts, &trailer].concat()
}

/// A fault of the graph, and often of a fact as well. 10 has two turns: a W may bring a count back, and other faults come before it.
fn refused(random: &mut Random, draft: &Draft, turn: usize) -> Vec<u8> {
    let of_graph: Vec<u8> = SALVAGED.into_iter().filter(|&rule| rule != 20).chain([10]).collect();
    let mut rules = vec![of_graph[turn % of_graph.len()], random.pick(&RULES)];
    rules.dedup();
    rules.truncate(random.within(1..=2));
    damage(random, draft, &rules).0
}

/// What is lent: room enough, to the byte or with some to spare, or too little in one of the two lists or in both.
fn lent(random: &mut Random, salvaged: &Salvaged) -> (usize, usize) {
    let (bytes, numbers) = (salvaged.file.len(), 3 * salvaged.dropped.len());
    let short = |random: &mut Random, length: usize| random.pick(&[0, length / 2, length.saturating_sub(1)]);
    let enough = |random: &mut Random, length: usize| length + random.pick(&[0, 0, 1, 2, 40]);
    match random.below(12) {
        0 => (short(random, bytes), enough(random, numbers)),
        1 => (enough(random, bytes), short(random, numbers)),
        2 => (short(random, bytes), short(random, numbers)),
        _ => (enough(random, bytes), enough(random, numbers)),
    }
}

impl Salvaging<'_> {
    /// Has the file salvaged, and holds what is left of it to the request's sentences.
    fn add(&mut self, random: &mut Random, file: Vec<u8>) -> Result<(), String> {
        if file.len() > room::WRECK {
            return Ok(());
        }
        let Ok(apart) = Apart::read(&file) else { return self.ask(random, &file, (file.len(), 12)) };
        let salvaged = apart.salvage();
        let room = lent(random, &salvaged);
        self.seen.add(&apart, &salvaged, room);
        self.ask(random, &file, room)?;
        let checks = hold(&apart, &file, &salvaged).map_err(|fault| format!("{fault}\n{}", show::file(&file)))?;
        checks.into_iter().try_for_each(|file| self.check(random, file))?;
        // What is left stays as it is.
        self.ask(random, &salvaged.file, (salvaged.file.len() + 2, 2))?;
        let fewer = fewer::remove(random, &salvaged.file).map_err(|fault| format!("{fault}\n{}", show::file(&file)))?;
        self.seen.removals += fewer.len() as u64;
        fewer.into_iter().try_for_each(|file| self.check(random, file))?;
        self.check(random, salvaged.file)
    }

    fn ask(&mut self, random: &mut Random, file: &[u8], (bytes, numbers): (usize, usize)) -> Result<(), String> {
        let out = random.noise(bytes, |number| number as u8);
        let dropped = random.noise(numbers, |number| number);
        self.requests.add(Request::Salvage { file: file.to_vec(), out, dropped })
    }

    fn check(&mut self, random: &mut Random, file: Vec<u8>) -> Result<(), String> {
        self.requests.add(Request::Check { interruptions: interruptions(random), file, numbers: vec![1; NUMBERS] })
    }

    /// A small file, sound or not, without its bytes from each place on: with the trailer put back, and without it.
    fn cut_everywhere(&mut self, random: &mut Random) -> Result<(), String> {
        let plan = Plan { nodes: random.within(2..=8), rows: 16, ..Plan::roomy(random) };
        let draft = sound(random, &plan, &Paper);
        let file = if random.chance(50) { draft.write() } else { several(random, &draft) };
        if file.len() > SMALL {
            return Ok(());
        }
        let (body, trailer) = file.split_at(file.len() - TRAILER);
        self.seen.cut_everywhere += 1;
        for end in 0..=body.len() {
            self.add(random, [&body[..end], trailer].concat())?;
        }
        (0..file.len()).try_for_each(|end| self.ask(random, &file[..end], (file.len(), 9)))
    }
}
