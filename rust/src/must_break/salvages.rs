//! Wrong salvages, each with a small file of which it leaves what is refused, or not all that stands; and a wrong bound with
//! which a file that loses a fact is charged less.

use crate::case::{judge, Apart, Draft, Fact, FactRecord, Lists, LoopRecord, Paper, Row, RowRecord, Rules, TRAILER};
use crate::compare::borders::seldom;
use crate::compare::salvages::{lowers_nothing, without};
use crate::show;

struct Wrong {
    name: &'static str,
    file: fn() -> Vec<u8>,
    salvage: fn(&Apart, &[u8]) -> Vec<u8>,
}

const ALL: [Wrong; 5] = [
    Wrong {
        name: "order judged against the fact before, kept or not: it keeps too much",
        file: falling,
        salvage: by_file,
    },
    Wrong {
        name: "order judged against the fact before, kept or not: it drops too much",
        file: peak,
        salvage: by_file,
    },
    Wrong {
        name: "everything from the first bad fact onward dropped",
        file: bad_in_the_middle,
        salvage: up_to_the_first,
    },
    Wrong { name: "the trailer's number of facts as it was", file: bad_in_the_middle, salvage: number_kept },
    Wrong { name: "stray bytes kept", file: strays, salvage: strays_kept },
];

/// The files, to be salvaged over `pipe` as well.
pub fn files() -> Vec<Vec<u8>> {
    ALL.iter().map(|wrong| (wrong.file)()).collect()
}

pub fn run() -> Result<(), String> {
    for wrong in &ALL {
        println!("{}", examine(wrong).map_err(|fault| format!("{}: {fault}", wrong.name))?);
    }
    print!("{}", lowered()?);
    Ok(())
}

/// The wrong salvage leaves a file that is refused, or one with fewer facts than stand together.
fn examine(wrong: &Wrong) -> Result<String, String> {
    let file = (wrong.file)();
    let apart = Apart::read(&file).map_err(|refusal| format!("the graph is not sound: {refusal:?}"))?;
    let right = apart.salvage();
    let facts = |file: &[u8]| judge(file, &Paper).map(|case| case.facts.len());
    let due = facts(&right.file).map_err(|refusal| format!("the right salvage leaves what is refused: {refusal:?}"))?;
    let left = (wrong.salvage)(&apart, &file);
    let fault = match facts(&left) {
        Err(refusal) => format!("what it leaves is {}", show::verdict(Some(refusal))),
        Ok(kept) if kept < due => format!("it keeps {kept} facts where {due} stand together"),
        Ok(_) => return Err("nothing is wrong with what it leaves".to_string()),
    };
    Ok(format!("wrong: {}\n{}  {fault}\n", wrong.name, show::file(&file)))
}

const BLOCKS: [u16; 3] = [3, 4, 5];

/// A loop of three nodes that fetch 3, 4 and 5, on LRU with three ways, and facts about it in the order in which they are handed.
fn looped(facts: Vec<FactRecord>) -> Draft {
    let lists =
        Lists { nodes: BLOCKS.to_vec(), edges: vec![(0, 1), (1, 2), (2, 0)], loops: vec![LoopRecord::new(0, 2, 10)] };
    Draft { version: 1, policy: 0, ways: 3, sets: 1, lists, facts }
}

/// A fact that stands: between two fetches of its block the two others are fetched.
fn fact(block: u16) -> FactRecord {
    let others = Row::Blocks(BLOCKS.into_iter().filter(|&other| other != block).collect());
    FactRecord { scope: 0, block, limit: 3, rows: vec![others.record(); 3] }
}

/// The same with a row that is not sound.
fn bad(block: u16) -> FactRecord {
    let no_row: RowRecord = [10; 8];
    FactRecord { rows: vec![no_row; 3], ..fact(block) }
}

fn falling() -> Vec<u8> {
    looped(vec![fact(5), fact(3), fact(4)]).write()
}

fn peak() -> Vec<u8> {
    looped(vec![fact(3), bad(5), fact(4)]).write()
}

fn bad_in_the_middle() -> Vec<u8> {
    looped(vec![fact(3), bad(4), fact(5)]).write()
}

fn strays() -> Vec<u8> {
    let mut file = looped(vec![fact(3)]).write();
    let end = file.len() - TRAILER;
    file.splice(end..end, [7; 5]);
    file
}

/// Each fact is judged behind the one before it in the file: as if that stood.
fn by_file(apart: &Apart, file: &[u8]) -> Vec<u8> {
    let heads = Draft::skim(file).map(|draft| draft.facts).unwrap_or_default();
    let stands = |place: usize| apart.judge(place, None).is_ok();
    let in_order = |place: usize| place == 0 || heads[place - 1].block < heads[place].block;
    let kept = (0..apart.pieces.len()).filter(|&place| stands(place) && in_order(place));
    apart.with(&kept.map(|place| apart.pieces[place]).collect::<Vec<_>>())
}

fn up_to_the_first(apart: &Apart, _: &[u8]) -> Vec<u8> {
    let mut before: Option<Fact> = None;
    let stand = (0..apart.pieces.len()).take_while(|&place| {
        before = apart.judge(place, before.as_ref()).ok();
        before.is_some()
    });
    apart.with(&apart.pieces[..stand.count()])
}

fn number_kept(apart: &Apart, file: &[u8]) -> Vec<u8> {
    let mut left = apart.salvage().file;
    let end = left.len() - TRAILER;
    left[end..].copy_from_slice(&file[file.len() - TRAILER..]);
    left
}

fn strays_kept(apart: &Apart, file: &[u8]) -> Vec<u8> {
    let mut left = apart.salvage().file;
    let (end, from) = (left.len() - TRAILER, file.len() - TRAILER);
    left.splice(end..end, file[from - apart.strays()..from].iter().copied());
    left
}

/// E + p where N is less.
struct NotTheLesser;

impl Rules for NotTheLesser {
    fn entered(&self, entries: u128, interruptions: u128, _fetches: u128) -> u128 {
        entries + interruptions
    }
}

/// "Removing a fact from an accepted file never lowers a set bound or the total": with E + p in place of the lesser of that and N it
/// does, since what is not covered is charged N. In the first file E alone is above N, in the second E + p is.
fn lowered() -> Result<String, String> {
    let tight = looped(vec![fact(3)]);
    [(seldom(0, 1), 0), (tight, 10)].iter().map(|(draft, interruptions)| lowered_by(draft, *interruptions)).collect()
}

fn lowered_by(draft: &Draft, interruptions: u16) -> Result<String, String> {
    let (file, fewer) = (draft.write(), without(draft, |_| true).write());
    lowers_nothing(&file, &fewer, interruptions, &Paper)?;
    let fault = lowers_nothing(&file, &fewer, interruptions, &NotTheLesser).err();
    let name = format!("E + p charged where N is less, p = {interruptions}");
    let fault = fault.ok_or(format!("{name}: nothing is lowered"))?;
    Ok(format!("wrong: {name}\n{}  {fault}\n\n", show::draft(draft)))
}
