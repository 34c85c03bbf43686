//! Inputs for the comparisons: states, traces, sound case files, and damaged ones.

pub mod braids;
pub mod cases;
pub mod costs;
pub mod damage;
pub mod evidence;
mod facts;
pub mod graphs;
pub mod nests;
pub mod pinched;
pub mod states;
pub mod traces;

use crate::machine::NONE;
use crate::random::Random;

/// Some different blocks, most of them small numbers, so that sets have several of them.
pub fn palette(random: &mut Random, size: usize, sets: u16) -> Vec<u16> {
    let near = usize::from(sets) * random.within(1..=3) + size;
    let draw = |random: &mut Random| {
        let far = random.chance(10);
        let limit = if far { usize::from(NONE) } else { near };
        random.below(limit) as u16
    };
    let mut blocks: Vec<u16> = (0..size).map(|_| draw(random)).collect();
    blocks.sort();
    blocks.dedup();
    blocks
}

/// How often handlers may run at the most: "0 to 65,535", small numbers more often, where E + p is not far from N.
pub fn interruptions(random: &mut Random) -> u16 {
    let (few, any) = (random.within(2..=40) as u16, random.word());
    random.pick(&[0, 0, 1, 1, few, few, any, 65_535])
}

/// A number of sets, small ones more often.
pub fn sets(random: &mut Random) -> u8 {
    let any = random.within(1..=64) as u8;
    random.pick(&[1, 1, 1, 2, 2, 3, 4, 7, 64, any])
}
