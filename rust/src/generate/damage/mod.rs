//! Case files with faults that are each aimed at one rule. What they really earn is for the second simulator to say.

mod bytes;
mod content;
mod facts;
mod graph;
mod layout;
mod several;

use crate::case::{Draft, NUMBERS};
use crate::random::Random;

pub use bytes::scatter;
pub use content::{spoil, stir, WRITTEN};
pub use facts::cut;
pub use several::several;

/// Every rule that a check can find broken, in its order: but 20, which is about the lent list, and 17, 24 and 25, which
/// are of one place.
pub const RULES: [u8; 23] = [1, 2, 3, 4, 5, 6, 7, 8, 9, 26, 10, 11, 12, 13, 14, 15, 16, 17, 24, 25, 18, 19, 20];

/// Every rule that the finder can find broken, in its order.
pub const FOUND: [u8; 14] = [1, 2, 3, 4, 5, 6, 7, 8, 9, 26, 10, 12, 14, 20];

/// Every rule that a salvage can find broken, in its order: 20 is about both lent lists.
pub const SALVAGED: [u8; 12] = [1, 2, 3, 4, 5, 6, 7, 8, 9, 26, 10, 20];

/// Every rule that a time can find broken, in its order: 20 is about the costs.
pub const TIMED: [u8; 24] = [1, 2, 3, 4, 5, 6, 7, 8, 9, 26, 10, 11, 12, 13, 14, 15, 16, 17, 24, 25, 18, 19, 20, 27];

/// Where among several the fault shall lie.
#[derive(Clone, Copy, Debug, PartialEq)]
pub enum Spot {
    First,
    Middle,
    Last,
}

impl Spot {
    pub const ALL: [Spot; 3] = [Spot::First, Spot::Middle, Spot::Last];

    /// An index below `count`; 0 where that leaves none.
    pub fn index(self, random: &mut Random, count: usize) -> usize {
        match self {
            Spot::Middle if count > 2 => random.within(1..=count - 2),
            Spot::Last => count.saturating_sub(1),
            _ => 0,
        }
    }
}

/// The file with faults aimed at the rules, and how long the lent list is to be. Faults of later rules come first: they
/// are made on lists that are sound so far.
pub fn damage(random: &mut Random, draft: &Draft, rules: &[u8]) -> (Vec<u8>, usize) {
    let mut rules = rules.to_vec();
    rules.sort_by_key(|rule| std::cmp::Reverse(RULES.iter().position(|other| other == rule)));
    let mut draft = draft.clone();
    for &rule in &rules {
        let spot = random.pick(&Spot::ALL);
        match rule {
            6..=10 | 26 => graph::damage(random, &mut draft, rule, spot),
            12..=14 | 16..=18 | 24 | 25 => facts::damage(random, &mut draft, rule, spot),
            _ => {}
        }
    }
    let mut file = draft.write();
    for &rule in &rules {
        let spot = random.pick(&Spot::ALL);
        match rule {
            1..=5 | 19 => layout::damage(random, &draft, &mut file, rule),
            11 | 15 => facts::cut(random, &draft, &mut file, rule, spot),
            _ => {}
        }
    }
    let short = random.pick(&[0, 1, NUMBERS - 1, NUMBERS / 2]);
    let numbers = if rules.contains(&20) { short } else { NUMBERS + random.below(10) };
    (file, numbers)
}
