//! The tree as a tree: forks that point to one of their halves, and lines as its leaves.

use super::{CacheSet, Outcome, SetState};

enum Tree {
    Line(Option<u16>),
    Fork(Box<Fork>),
}

struct Fork {
    /// "Bits are numbered from the root: 0, then 2i+1 and 2i+2 below i".
    number: u32,
    points_up: bool,
    /// The half with the lower lines, and the other.
    low: Tree,
    high: Tree,
}

impl Tree {
    /// Over these lines, with the bits from this one down. "0 points to the lower lines."
    fn load(lines: &[Option<u16>], number: u32, bits: u8) -> Tree {
        if let [line] = lines {
            return Tree::Line(*line);
        }
        let (low, high) = lines.split_at(lines.len() / 2);
        Tree::Fork(Box::new(Fork {
            number,
            points_up: (u32::from(bits) / 2u32.pow(number)) % 2 == 1,
            low: Tree::load(low, 2 * number + 1, bits),
            high: Tree::load(high, 2 * number + 2, bits),
        }))
    }

    /// Accesses the block where it stands, if it does: "Each access turns the bits on its line's path away from it."
    fn hit(&mut self, block: u16) -> bool {
        match self {
            Tree::Line(line) => *line == Some(block),
            Tree::Fork(fork) => {
                let (low, high) = (fork.low.hit(block), fork.high.hit(block));
                if low || high {
                    fork.points_up = low;
                }
                low || high
            }
        }
    }

    /// "A miss follows the bits and takes that line, empty or not."
    fn miss(&mut self, block: u16) {
        match self {
            Tree::Line(line) => *line = Some(block),
            Tree::Fork(fork) => {
                let taken = if fork.points_up { &mut fork.high } else { &mut fork.low };
                taken.miss(block);
                fork.points_up = !fork.points_up;
            }
        }
    }

    fn holds(&self, block: u16) -> bool {
        self.lines().contains(&Some(block))
    }

    fn lines(&self) -> Vec<Option<u16>> {
        match self {
            Tree::Line(line) => vec![*line],
            Tree::Fork(fork) => [fork.low.lines(), fork.high.lines()].concat(),
        }
    }

    fn bits(&self) -> u8 {
        match self {
            Tree::Line(_) => 0,
            Tree::Fork(fork) => {
                let own = if fork.points_up { 2u8.pow(fork.number) } else { 0 };
                own + fork.low.bits() + fork.high.bits()
            }
        }
    }
}

pub struct TreeSet {
    root: Tree,
}

impl TreeSet {
    pub fn load(ways: usize, state: &SetState) -> TreeSet {
        let lines: Vec<Option<u16>> = state.blocks(ways).collect();
        TreeSet { root: Tree::load(&lines, 0, state.bits) }
    }
}

impl CacheSet for TreeSet {
    fn fetch(&mut self, block: u16) -> Outcome {
        if self.root.hit(block) {
            return Outcome::Hit;
        }
        self.root.miss(block);
        Outcome::Miss
    }

    fn holds(&self, block: u16) -> bool {
        self.root.holds(block)
    }

    fn state(&self) -> SetState {
        SetState::from_lines(self.root.lines(), self.root.bits())
    }
}
