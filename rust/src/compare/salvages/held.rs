//! What a salvage must leave: held to the check and to the first file's lists.

use crate::case::{judge, Apart, Draft, FactRecord, Paper, Salvaged};
use crate::refusal::Refusal;

/// Holds what is left to the request's sentences. Hands over the files that show that each fact was dropped justly: what was
/// kept before it, and the fact put back behind that, which the check must refuse with the same number.
pub fn hold(apart: &Apart, file: &[u8], salvaged: &Salvaged) -> Result<Vec<Vec<u8>>, String> {
    let Salvaged { file: left, dropped } = salvaged;
    if let Err(refusal) = judge(left, &Paper) {
        return Err(format!("what is left is refused: {refusal:?}"));
    }
    if judge(file, &Paper).is_ok() && (left != file || !dropped.is_empty()) {
        return Err("a sound file does not stay the same".to_string());
    }
    let again = Apart::read(left).map(|apart| apart.salvage());
    if again != Ok(Salvaged { file: left.clone(), dropped: Vec::new() }) {
        return Err("a second salvage changes what the first has left".to_string());
    }
    if !keeps_the_rest(file, left, dropped) {
        return Err("a fact that is not dropped is not there as it was".to_string());
    }
    dropped.iter().map(|refusal| put_back(apart, dropped, refusal)).collect()
}

fn is_dropped(dropped: &[Refusal], place: usize) -> bool {
    dropped.iter().any(|refusal| refusal.place == place as u64)
}

/// The facts of the first file but for those that are dropped are those of what is left, in order, number by number; and the
/// graph and the cache are the same.
fn keeps_the_rest(file: &[u8], left: &[u8], dropped: &[Refusal]) -> bool {
    let (Ok(before), Ok(after)) = (Draft::skim(file), Draft::skim(left)) else { return false };
    let facts = before.facts.iter().enumerate().filter(|(place, _)| !is_dropped(dropped, *place));
    let kept: Vec<FactRecord> = facts.map(|(_, fact)| fact.clone()).collect();
    kept.len() == after.facts.len() && Draft { facts: kept, ..before }.write() == left
}

/// The file that has what was kept before the fact, and the fact.
fn put_back(apart: &Apart, dropped: &[Refusal], refusal: &Refusal) -> Result<Vec<u8>, String> {
    let place = refusal.place as usize;
    let before = apart.pieces[..place].iter().enumerate().filter(|(place, _)| !is_dropped(dropped, *place));
    let mut facts: Vec<&[u8]> = before.map(|(_, piece)| *piece).collect();
    let due = Refusal { place: facts.len() as u64, ..*refusal };
    facts.push(apart.pieces[place]);
    let file = apart.with(&facts);
    match judge(&file, &Paper) {
        Err(told) if told == due => Ok(file),
        told => Err(format!("fact {place} is dropped for {refusal:?}, but put back it earns {:?}", told.err())),
    }
}
