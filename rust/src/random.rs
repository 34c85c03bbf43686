//! A seeded source of numbers: the same seed gives the same comparisons on every machine.

use std::ops::RangeInclusive;

pub struct Random {
    state: u64,
}

impl Random {
    /// Each part of a run has its own stream, so that its cases do not depend on which other parts ran.
    pub fn for_part(seed: u64, part: &str) -> Random {
        let mut random = Random { state: seed };
        for byte in part.bytes() {
            random.state = random.draw() ^ u64::from(byte);
        }
        random
    }

    /// Splitmix64.
    pub fn draw(&mut self) -> u64 {
        self.state = self.state.wrapping_add(0x9e37_79b9_7f4a_7c15);
        let mixed = (self.state ^ (self.state >> 30)).wrapping_mul(0xbf58_476d_1ce4_e5b9);
        let mixed = (mixed ^ (mixed >> 27)).wrapping_mul(0x94d0_49bb_1331_11eb);
        mixed ^ (mixed >> 31)
    }

    /// A number from 0 up to, but not with, `limit`; 0 where that leaves none.
    pub fn below(&mut self, limit: usize) -> usize {
        (self.draw() % limit.max(1) as u64) as usize
    }

    pub fn within(&mut self, range: RangeInclusive<usize>) -> usize {
        range.start() + self.below(range.end().saturating_sub(*range.start()) + 1)
    }

    pub fn chance(&mut self, percent: usize) -> bool {
        self.below(100) < percent
    }

    pub fn pick<T: Clone>(&mut self, list: &[T]) -> T {
        list[self.below(list.len())].clone()
    }

    /// Any u16, with the ends of the range more often than chance would have it.
    pub fn word(&mut self) -> u16 {
        let any = self.draw() as u16;
        self.pick(&[any, any, any, any, any, any, 0, 1, 65_534, 65_535])
    }

    /// Any byte, with the ends of the range more often than chance would have it.
    pub fn byte(&mut self) -> u8 {
        let any = self.draw() as u8;
        self.pick(&[any, any, any, any, any, any, 0, 1, 254, 255])
    }

    /// Lent memory as nobody would leave it, so that a change in it shows.
    pub fn noise<T>(&mut self, length: usize, shape: impl Fn(u64) -> T) -> Vec<T> {
        (0..length).map(|_| shape(self.draw())).collect()
    }
}
