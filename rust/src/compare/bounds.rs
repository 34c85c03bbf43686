//! The programs `bounds` and `bounds0` themselves, started anew for each file: what they print, byte for byte.

use super::again::Again;
use super::borders::fetched_once;
use super::Settings;
use crate::case::{Draft, FactRecord, Lists, LoopRecord, Paper, LARGEST, TRAILER};
use crate::generate::cases::{sound, Plan};
use crate::generate::damage::{damage, scatter, RULES};
use crate::generate::graphs::steps;
use crate::listing::{listing, LONGEST_INPUT};
use crate::machine::Shape;
// A child process that is handed its input and read to its end: what talks to `pipe` starts `bounds` as well.
use crate::pipe::{Pipe, Pipe as Program};
use crate::random::Random;
use crate::show;
use std::collections::{BTreeMap, BTreeSet};

/// How often each kind of text must be seen.
const AT_LEAST: u64 = 10;

#[derive(Default)]
struct Seen {
    /// By the text's first words: `total`, or `refused` with its number.
    texts: BTreeMap<String, u64>,
    /// Listings with facts in several sets, and with all 64 sets.
    spread: u64,
    widest: u64,
    /// Files with another listing where nothing interrupts.
    raised: u64,
    lines: usize,
}

/// "`bounds` now always takes p = 1. The nightly comparison relied on 0 and gets a program `bounds0` that keeps it".
pub struct Programs<'a> {
    pub bounds: &'a Program,
    pub bounds0: &'a Program,
}

pub fn run(programs: &Programs, pipe: &Pipe, settings: &Settings) -> Result<(), String> {
    let mut random = Random::for_part(settings.seed, "bounds");
    let mut again = Again::new(pipe, settings.library.as_ref());
    let mut seen = Seen::default();
    for file in at_the_limits() {
        again.add(&file)?;
        compare(programs, &file, &mut seen)?;
    }
    for i in 0..settings.printed {
        let file = match i % 10 {
            0..=4 => sound_file(&mut random, &mut seen),
            5 => scattered_file(&mut random),
            _ => damaged_file(&mut random, i / 10 * 4 + i % 10 - 6),
        };
        again.add(&file)?;
        compare(programs, &file, &mut seen)?;
    }
    seen.report(settings.printed);
    seen.demand()?;
    again.finish()
}

/// Starts a program on the file, and holds what it prints to the second simulator's listing for so many interruptions.
fn printed(name: &str, program: &Program, file: &[u8], interruptions: u16) -> Result<String, String> {
    let own = listing(file, interruptions);
    let said = program.converse(file.to_vec())?;
    if said.bytes != own.as_bytes() || !said.status.success() {
        let printed = String::from_utf8_lossy(&said.bytes);
        let texts =
            format!("the second simulator has\n{own}{name}, which ended with {}, printed\n{printed}", said.status);
        return Err(format!("{}{texts}", show::file(file)));
    }
    Ok(own)
}

/// Starts both programs on the file. "Refusals: unchanged."
fn compare(programs: &Programs, file: &[u8], seen: &mut Seen) -> Result<(), String> {
    let own = printed("bounds", programs.bounds, file, 1)?;
    let own0 = printed("bounds0", programs.bounds0, file, 0)?;
    seen.raised += u64::from(own != own0);
    let words: Vec<&str> = own.split_whitespace().collect();
    let kind = if words[0] == "refused" { words[..2].join(" ") } else { words[0].to_string() };
    *seen.texts.entry(kind).or_default() += 1;
    seen.lines = seen.lines.max(own.lines().count());
    Ok(())
}

/// A file with several sets more often than not, and with facts about blocks of several of them.
fn sound_file(random: &mut Random, seen: &mut Seen) -> Vec<u8> {
    let (policy, ways) = random.pick(&Shape::all_numbers());
    let any = random.within(1..=64) as u8;
    let sets = random.pick(&[1, 2, 3, 4, 8, 63, 64, any, any, any]);
    let (blocks, rows) = (random.within(1..=40), random.pick(&[20, 120, 600]));
    let plan = Plan { blocks, rows, machine: Some((policy, ways, sets)), ..Plan::any(random) };
    let draft = sound(random, &plan, &Paper);
    let held: BTreeSet<u16> = draft.facts.iter().map(|fact| fact.block % u16::from(sets)).collect();
    seen.spread += u64::from(held.len() > 1);
    seen.widest += u64::from(sets == 64);
    draft.write()
}

fn scattered_file(random: &mut Random) -> Vec<u8> {
    let plan = Plan::any(random);
    let mut file = sound(random, &plan, &Paper).write();
    scatter(random, &mut file);
    file
}

/// One fault, so that each rule comes up as often as the others; but for 20, the last, which is about the lent list.
fn damaged_file(random: &mut Random, turn: usize) -> Vec<u8> {
    let rule = RULES[turn % (RULES.len() - 1)];
    let plan = Plan::roomy(random);
    let draft = sound(random, &plan, &Paper);
    damage(random, &draft, &[rule]).0
}

/// The longest listing: 64 sets, and 256 facts, four in each of 64 loops.
fn longest_listing(policy: u8) -> Vec<u8> {
    let lists = Lists {
        nodes: (0..256).collect(),
        edges: steps(256).collect(),
        loops: (0..64).map(|i| LoopRecord::new(4 * i, 4 * i + 3, 1_000_000 - u32::from(i))).collect(),
    };
    let first = |block| block / 4 * 4;
    let rows = |block| fetched_once(first(block)..first(block) + 4, block);
    let fact = |block| FactRecord { scope: block / 4, block, limit: 2, rows: rows(block) };
    Draft { version: 1, policy, ways: 8, sets: 64, lists, facts: (0..256).map(fact).collect() }.write()
}

/// The shortest and the longest inputs: "more than 65,536 bytes" is longer than the program reads.
fn at_the_limits() -> Vec<Vec<u8>> {
    let lists = Lists { nodes: (0..LARGEST[0]).collect(), edges: steps(LARGEST[0]).collect(), loops: Vec::new() };
    let whole = Draft { version: 1, policy: 0, ways: 1, sets: 64, lists, facts: Vec::new() }.write();
    let (graph, trailer) = whole.split_at(whole.len() - TRAILER);
    let padded = |length: usize| [graph, &vec![0; length - whole.len()], trailer].concat();
    let lengths = [LONGEST_INPUT - 1, LONGEST_INPUT, LONGEST_INPUT + 1, LONGEST_INPUT + 4_096, 3 * LONGEST_INPUT];
    let mut files = vec![Vec::new(), vec![0], whole.clone()];
    files.extend((0..3).map(longest_listing));
    files.extend(lengths.map(padded));
    files.extend((0..AT_LEAST as usize).map(|more| padded(LONGEST_INPUT + 1 + more)));
    files
}

impl Seen {
    fn report(&self, files: usize) {
        println!("what bounds and bounds0 printed for {files} files and some at the limits:");
        for (text, count) in &self.texts {
            println!("  {text:<10} {count:>6}");
        }
        println!("  files with facts in several sets: {}, with 64 sets: {}", self.spread, self.widest);
        println!("  files with another listing where nothing interrupts: {}", self.raised);
        println!("  lines of the longest listing: {}", self.lines);
    }

    fn demand(&self) -> Result<(), String> {
        let kinds = RULES.into_iter().filter(|&rule| rule != 20).chain([28]).map(|number| format!("refused {number}"));
        for kind in kinds.chain(["total".to_string()]) {
            if self.texts.get(&kind).is_none_or(|&count| count < AT_LEAST) {
                return Err(format!("`{kind}` was printed too seldom"));
            }
        }
        if self.spread < AT_LEAST || self.widest < AT_LEAST {
            return Err("too few files had facts in several sets, or 64 sets".to_string());
        }
        if self.raised < AT_LEAST {
            return Err("too few files had another listing where nothing interrupts".to_string());
        }
        Ok(())
    }
}
