//! "Removing a fact from an accepted file never lowers a set bound or the total".

use crate::case::{judge, Bounds, Draft, Paper, Rules};
use crate::generate::interruptions;
use crate::random::Random;

/// Some files with fewer facts than this one, which is accepted: one fact less, and any number of them.
pub fn remove(random: &mut Random, file: &[u8]) -> Result<Vec<Vec<u8>>, String> {
    let draft = Draft::skim(file).map_err(|refusal| format!("{refusal:?}"))?;
    if draft.facts.is_empty() || random.chance(70) {
        return Ok(Vec::new());
    }
    let at = random.below(draft.facts.len());
    let one = without(&draft, |place| place == at);
    let some = without(&draft, |_| random.chance(50));
    let files = [one.write(), some.write()];
    let interruptions = interruptions(random);
    files.into_iter().map(|fewer| lowers_nothing(file, &fewer, interruptions, &Paper).map(|()| fewer)).collect()
}

/// The draft without the facts at these places.
pub fn without(draft: &Draft, mut goes: impl FnMut(usize) -> bool) -> Draft {
    let facts = draft.facts.iter().enumerate().filter(|(place, _)| !goes(*place));
    Draft { facts: facts.map(|(_, fact)| fact.clone()).collect(), ..draft.clone() }
}

/// The second file is the first with some facts removed; both are charged for as many interruptions.
pub fn lowers_nothing(file: &[u8], fewer: &[u8], interruptions: u16, rules: &dyn Rules) -> Result<(), String> {
    let case = |file: &[u8]| judge(file, rules).map_err(|refusal| format!("{refusal:?}"));
    let bounds = |file: &[u8]| case(file).map(|case| case.bounds(interruptions, rules));
    let (Bounds { total, sets, .. }, less) = (bounds(file)?, bounds(fewer)?);
    let lower = |set: &usize| less.sets[*set] < sets[*set];
    match (0..sets.len()).find(lower) {
        Some(set) => {
            Err(format!("without a fact the bound of set {set} falls from {} to {}", sets[set], less.sets[set]))
        }
        None if less.total < total => Err(format!("without a fact the total falls from {total} to {}", less.total)),
        None => Ok(()),
    }
}
