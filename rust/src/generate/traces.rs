//! Traces over few blocks, so that there are hits and misses of every age.

use super::palette;
use crate::random::Random;

/// A trace for a cache of the given ways and sets: a block comes again after about as many others as the cache holds.
pub fn trace(random: &mut Random, length: usize, ways: u8, sets: u8) -> Vec<u16> {
    let capacity = usize::from(ways) * usize::from(sets);
    let size = random.within(1..=4 * capacity + 2);
    let blocks = palette(random, size, sets.into());
    let again = random.pick(&[0, 0, 30, 60]);
    let mut trace: Vec<u16> = Vec::with_capacity(length);
    for _ in 0..length {
        let recent = random.below(capacity + 1) + 1;
        let block = match trace.len().checked_sub(recent) {
            Some(place) if random.chance(again) => trace[place],
            _ => random.pick(&blocks),
        };
        trace.push(block);
    }
    trace
}
