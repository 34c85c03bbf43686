//! "A trace run takes a policy, k, S, a lent list of 16-bit blocks and a byte list; all sets start empty with bits 0."

use super::{load, Geometry, Outcome, SetState, NONE};
use crate::refusal::{demand, refuse_least, Refusal};

/// "Trace run: 3, 20, 21." "It writes 1 for a miss and 0 for a hit per access, leaves later bytes, and returns the
/// misses."
pub fn trace_run(policy: u8, ways: u8, sets: u8, blocks: &[u16], marks: &mut [u8]) -> Result<u64, Refusal> {
    let geometry = Geometry::read(policy, ways, sets)?;
    demand(20, marks.len() >= blocks.len())?;
    refuse_least(21, blocks.iter().map(|&block| block == NONE))?;
    let mut cache: Vec<_> = (0..sets).map(|_| load(geometry.shape, &SetState::EMPTY)).collect();
    let mut misses = 0;
    for (&block, mark) in blocks.iter().zip(marks) {
        let miss = cache[geometry.set_of(block)].fetch(block) == Outcome::Miss;
        *mark = miss.into();
        misses += u64::from(miss);
    }
    Ok(misses)
}
