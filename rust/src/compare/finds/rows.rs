//! All rows that a fact could have, where there are few.

use crate::case::{Gathered, Row, RowRecord};
use std::collections::BTreeSet;

/// How many there may be.
const MOST: usize = 250;

/// All rows that are sound for the limit and hold no blocks but those that gather somewhere; None where they are many.
pub fn all(gathered: &Gathered, limit: usize) -> Option<Vec<Vec<RowRecord>>> {
    let blocks: BTreeSet<u16> = gathered.at.iter().flatten().flatten().copied().collect();
    let choices: Vec<RowRecord> = sound(&blocks, limit).iter().map(Row::record).collect();
    let mut all = vec![Vec::new()];
    for _ in &gathered.at {
        if all.len() * choices.len() > MOST {
            return None;
        }
        let longer =
            |rows: &Vec<RowRecord>| choices.iter().map(|&row| [&rows[..], &[row]].concat()).collect::<Vec<_>>();
        all = all.iter().flat_map(longer).collect();
    }
    Some(all)
}

/// 8, 9, and every set of fewer than l of the blocks.
fn sound(blocks: &BTreeSet<u16>, limit: usize) -> Vec<Row> {
    let mut sets = vec![BTreeSet::new()];
    for &block in blocks {
        let with = sets.iter().map(|set| set.iter().copied().chain([block]).collect::<BTreeSet<u16>>());
        let with: Vec<BTreeSet<u16>> = with.filter(|set| set.len() < limit).collect();
        sets.extend(with);
    }
    sets.into_iter().map(Row::Blocks).chain([Row::Many, Row::NotSince]).collect()
}
