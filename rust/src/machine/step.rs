//! "A single step takes a policy, k, any set state and any block (no S; the block's set isn't looked at) and hands the
//! new state back with hit or miss". "Step: 3, 22, 21."

use super::{block_or_none, legal, load, Outcome, SetState, Shape};
use crate::refusal::{demand, Refusal};

pub fn step(policy: u8, ways: u8, state: &SetState, block: u16) -> Result<(Outcome, SetState), Refusal> {
    let shape = Shape::read(policy, ways)?;
    demand(22, legal(shape, state))?;
    let block = block_or_none(block).ok_or(Refusal::new(21, 0))?;
    let mut set = load(shape, state);
    let outcome = set.fetch(block);
    Ok((outcome, set.state()))
}
