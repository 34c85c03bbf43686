//! Legal states, refusal 22.

use super::{Policy, SetState, Shape};
use std::collections::BTreeSet;

/// "A state is legal if no block stands in two lines, the lines from k on are empty, and the bits are 0 for LRU and
/// FIFO; for NMRU the bits from k on are 0 and at least one of the low k is 0." Of the tree: "A legal state has bits 0 from k-1
/// on."
pub fn legal(shape: Shape, state: &SetState) -> bool {
    let standing: Vec<u16> = state.blocks(8).flatten().collect();
    let distinct: BTreeSet<&u16> = standing.iter().collect();
    let only_below_k = state.blocks(8).skip(shape.ways).all(|block| block.is_none());
    distinct.len() == standing.len() && only_below_k && legal_bits(shape, state.bits)
}

/// The low k bits are all 1 exactly in the number 2^k - 1, and a bit from k on makes the byte larger than that.
fn legal_bits(shape: Shape, bits: u8) -> bool {
    match shape.policy {
        Policy::Lru | Policy::Fifo => bits == 0,
        Policy::Nmru => u32::from(bits) < 2u32.pow(shape.ways as u32) - 1,
        Policy::Tree => u32::from(bits) < 2u32.pow(shape.ways as u32 - 1),
    }
}
