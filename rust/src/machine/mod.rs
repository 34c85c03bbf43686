//! "The three machines", and the tree of item 9. A set state crosses the pipe as eight lines and a byte of bits; inside, each
//! policy has a representation of its own: LRU an age list, FIFO a queue, NMRU lines with flags, the tree a tree.

pub mod address;
mod fifo;
mod geometry;
mod legal;
mod lru;
mod nmru;
pub mod step;
pub mod trace;
mod tree;
pub mod ways;

pub use geometry::{Geometry, Policy, Shape};
pub use legal::legal;

/// "A block is a number 0 to 65,534; 65,535 means none."
pub const NONE: u16 = 65_535;

pub fn block_or_none(number: u16) -> Option<u16> {
    (number != NONE).then_some(number)
}

/// A set "is held as eight lines and one byte of bits".
#[derive(Clone, Debug, PartialEq, Eq)]
pub struct SetState {
    pub lines: [u16; 8],
    pub bits: u8,
}

impl SetState {
    pub const EMPTY: SetState = SetState { lines: [NONE; 8], bits: 0 };

    /// The first `ways` lines, each with a block or empty.
    fn blocks(&self, ways: usize) -> impl DoubleEndedIterator<Item = Option<u16>> + '_ {
        self.lines[..ways].iter().map(|&number| block_or_none(number))
    }

    /// Lines that are not given are empty.
    fn from_lines(lines: impl IntoIterator<Item = Option<u16>>, bits: u8) -> SetState {
        let mut state = SetState { bits, ..SetState::EMPTY };
        for (slot, block) in state.lines.iter_mut().zip(lines) {
            *slot = block.unwrap_or(NONE);
        }
        state
    }
}

#[derive(Clone, Copy, Debug, PartialEq, Eq)]
pub enum Outcome {
    Hit,
    Miss,
}

/// One set of a cache, in whatever representation its policy likes.
pub trait CacheSet {
    fn fetch(&mut self, block: u16) -> Outcome;
    fn holds(&self, block: u16) -> bool;
    fn state(&self) -> SetState;
}

/// Takes a legal state into the policy's own representation.
pub fn load(shape: Shape, state: &SetState) -> Box<dyn CacheSet> {
    match shape.policy {
        Policy::Lru => Box::new(lru::Lru::load(shape.ways, state)),
        Policy::Fifo => Box::new(fifo::Fifo::load(shape.ways, state)),
        Policy::Nmru => Box::new(nmru::Nmru::load(shape.ways, state)),
        Policy::Tree => Box::new(tree::TreeSet::load(shape.ways, state)),
    }
}
