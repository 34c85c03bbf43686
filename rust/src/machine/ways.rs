//! "What LRU would miss with one way, two ways and so on up to eight": no cache is kept, only what was fetched, and each access looks
//! back for itself.

use super::{geometry::read_sets, NONE};
use crate::refusal::{refuse_least, Refusal};
use std::collections::BTreeSet;

/// "Refusals: 3 for sets, 21 for blocks, in that order, no count returned."
pub fn all_ways(sets: u8, blocks: &[u16]) -> Result<[u64; 8], Refusal> {
    let sets = read_sets(sets)?;
    refuse_least(21, blocks.iter().map(|&block| block == NONE))?;
    let mut fetched: Vec<Vec<u16>> = vec![Vec::new(); sets.into()];
    let mut counts = [0; 8];
    for &block in blocks {
        let earlier = &mut fetched[usize::from(block % sets)];
        let others = others_since(earlier, block);
        for (ways, misses) in (1..).zip(&mut counts) {
            *misses += u64::from(!others.is_some_and(|others| others < ways));
        }
        earlier.push(block);
    }
    Ok(counts)
}

/// "How many other blocks of its set came since its last one"; None where there is no last one, or where eight came.
fn others_since(earlier: &[u16], block: u16) -> Option<usize> {
    let mut others = BTreeSet::new();
    for &before in earlier.iter().rev() {
        if before == block {
            return Some(others.len());
        }
        others.insert(before);
        if others.len() == 8 {
            return None;
        }
    }
    None
}
