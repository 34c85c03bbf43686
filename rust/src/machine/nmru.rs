//! NMRU as lines that each carry their own flag.

use super::{CacheSet, Outcome, SetState};

struct Line {
    block: Option<u16>,
    recent: bool,
}

pub struct Nmru {
    lines: Vec<Line>,
}

impl Nmru {
    /// "Bit i, of value 2^i, is line i's."
    pub fn load(ways: usize, state: &SetState) -> Nmru {
        let flagged = state.blocks(ways).enumerate();
        let line = |(i, block)| Line { block, recent: (u32::from(state.bits) / 2u32.pow(i as u32)) % 2 == 1 };
        Nmru { lines: flagged.map(line).collect() }
    }

    /// "The accessed line's bit becomes 1; if then all k bits are 1, all the others become 0."
    fn mark(&mut self, accessed: usize) {
        self.lines[accessed].recent = true;
        if self.lines.iter().all(|line| line.recent) {
            for (i, line) in self.lines.iter_mut().enumerate() {
                line.recent = i == accessed;
            }
        }
    }
}

impl CacheSet for Nmru {
    /// The board "puts a missed block in the lowest empty line, whatever its bit says, and looks at bits only when no line
    /// is empty".
    fn fetch(&mut self, block: u16) -> Outcome {
        if let Some(found) = self.lines.iter().position(|line| line.block == Some(block)) {
            self.mark(found);
            return Outcome::Hit;
        }
        let empty = self.lines.iter().position(|line| line.block.is_none());
        let taken = empty.or_else(|| self.lines.iter().position(|line| !line.recent));
        let taken = taken.expect("a legal state has a line whose bit is 0");
        self.lines[taken].block = Some(block);
        self.mark(taken);
        Outcome::Miss
    }

    fn holds(&self, block: u16) -> bool {
        self.lines.iter().any(|line| line.block == Some(block))
    }

    fn state(&self) -> SetState {
        let bits = self.lines.iter().rev().fold(0, |bits, line| 2 * bits + u8::from(line.recent));
        SetState::from_lines(self.lines.iter().map(|line| line.block), bits)
    }
}
