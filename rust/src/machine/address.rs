//! "Addresses, block numbers and set numbers, which the sources distinguish, are each kept apart."

use super::block_or_none;
use super::geometry::read_sets;
use crate::refusal::{demand, Refusal};

/// "The line size is 8, 16, 32, 64 or 128."
pub const LINE_SIZES: [u32; 5] = [8, 16, 32, 64, 128];

/// "Block = address / line size, rounded down". "Address: 23, 21."
pub fn block_of(address: u32, line_size: u32) -> Result<u16, Refusal> {
    demand(23, LINE_SIZES.contains(&line_size))?;
    let quotient = u16::try_from(address / line_size).ok();
    quotient.and_then(block_or_none).ok_or(Refusal::new(21, 0))
}

/// "With S sets (1 to 64), block b lives in set b mod S": refusal 3 for other S, then 21 for "none".
pub fn set_of(block: u16, sets: u8) -> Result<u8, Refusal> {
    let sets = read_sets(sets)?;
    let block = block_or_none(block).ok_or(Refusal::new(21, 0))?;
    Ok((block % sets) as u8)
}
