//! LRU as an age list: every way remembers when it was last used, and nothing ever moves.
//!
//! "Line 0 is the youngest": the lines are the ways in falling order of last use. An empty line has an age like any
//! other, so a hole moves down with its neighbours and is lost when it is the oldest.

use super::{CacheSet, Outcome, SetState};

struct Way {
    block: Option<u16>,
    last_use: u64,
}

pub struct Lru {
    ways: Vec<Way>,
    now: u64,
}

impl Lru {
    pub fn load(ways: usize, state: &SetState) -> Lru {
        let oldest_first = state.blocks(ways).rev().zip(1..);
        let ways = oldest_first.map(|(block, last_use)| Way { block, last_use }).collect::<Vec<_>>();
        Lru { now: ways.len() as u64, ways }
    }
}

impl CacheSet for Lru {
    /// "A hit at line j moves the block to line 0 and lines 0 to j-1 one down": it becomes the last used.
    /// "A miss moves all one down; the last is lost": the oldest way takes the block.
    fn fetch(&mut self, block: u16) -> Outcome {
        self.now += 1;
        let last_use = self.now;
        match self.ways.iter_mut().find(|way| way.block == Some(block)) {
            Some(way) => {
                way.last_use = last_use;
                Outcome::Hit
            }
            None => {
                let oldest = self.ways.iter_mut().min_by_key(|way| way.last_use);
                *oldest.expect("a set has at least one way") = Way { block: Some(block), last_use };
                Outcome::Miss
            }
        }
    }

    fn holds(&self, block: u16) -> bool {
        self.ways.iter().any(|way| way.block == Some(block))
    }

    fn state(&self) -> SetState {
        let mut youngest_first: Vec<&Way> = self.ways.iter().collect();
        youngest_first.sort_by_key(|way| std::cmp::Reverse(way.last_use));
        SetState::from_lines(youngest_first.iter().map(|way| way.block), 0)
    }
}
