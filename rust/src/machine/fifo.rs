//! FIFO as an explicit queue: blocks come in at the back and leave at the front.

use super::{CacheSet, Outcome, SetState};
use std::collections::VecDeque;

/// The front has waited longest (the last line), the back came last (line 0). A hole waits like a block.
pub struct Fifo {
    queue: VecDeque<Option<u16>>,
}

impl Fifo {
    pub fn load(ways: usize, state: &SetState) -> Fifo {
        Fifo { queue: state.blocks(ways).rev().collect() }
    }
}

impl CacheSet for Fifo {
    /// "A miss as in LRU. A hit changes nothing."
    fn fetch(&mut self, block: u16) -> Outcome {
        if self.holds(block) {
            return Outcome::Hit;
        }
        self.queue.pop_front();
        self.queue.push_back(Some(block));
        Outcome::Miss
    }

    fn holds(&self, block: u16) -> bool {
        self.queue.contains(&Some(block))
    }

    fn state(&self) -> SetState {
        SetState::from_lines(self.queue.iter().rev().copied(), 0)
    }
}
