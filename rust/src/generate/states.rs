//! Set states for the single step and for the starts of walks.

use crate::machine::{block_or_none, Geometry, Policy, SetState, Shape, NONE};
use crate::random::Random;

/// How many patterns of bits are legal: those below this number.
pub fn patterns(shape: Shape) -> usize {
    match shape.policy {
        Policy::Lru | Policy::Fifo => 1,
        Policy::Nmru => (1 << shape.ways) - 1,
        Policy::Tree => 1 << (shape.ways - 1),
    }
}

/// A legal state over the given blocks: "Empty lines may stand anywhere below k."
pub fn legal_state(random: &mut Random, shape: Shape, blocks: &[u16]) -> SetState {
    let mut state = SetState::EMPTY;
    let mut left = blocks.to_vec();
    let holes = random.pick(&[0, 0, 20, 50, 100]);
    for line in &mut state.lines[..shape.ways] {
        if !left.is_empty() && !random.chance(holes) {
            *line = left.swap_remove(random.below(left.len()));
        }
    }
    state.bits = random.below(patterns(shape)) as u8;
    state
}

/// A state that is damaged in one of the ways that make it illegal, or random all over.
pub fn damaged_state(random: &mut Random, shape: Shape, blocks: &[u16]) -> SetState {
    let mut state = legal_state(random, shape, blocks);
    match random.below(4) {
        0 => {
            let (one, other) = (random.below(8), random.below(8));
            state.lines[one] = random.pick(blocks);
            state.lines[other] = state.lines[one];
        }
        1 => state.lines[random.within(shape.ways.min(7)..=7)] = random.pick(blocks),
        2 => state.bits = random.within(patterns(shape)..=255) as u8,
        _ => {
            state.lines = [(); 8].map(|()| if random.chance(30) { NONE } else { random.word() });
            state.bits = random.byte();
        }
    }
    state
}

/// "Every legal content of every set at the start": the file's blocks, of the set or not, others, and empty lines.
pub fn contents(random: &mut Random, geometry: Geometry, nodes: &[u16]) -> Vec<SetState> {
    let mut fetched: Vec<u16> = nodes.iter().copied().filter_map(block_or_none).collect();
    fetched.sort();
    fetched.dedup();
    let foreign = (0..NONE).rev().filter(|block| !nodes.contains(block)).take(8);
    let foreign: Vec<u16> = foreign.collect();
    let content = |set| {
        let strict = random.chance(90);
        let own = fetched.iter().filter(|&&block| !strict || geometry.set_of(block) == set);
        let others = if random.chance(50) { &foreign[..] } else { &[] };
        let blocks: Vec<u16> = own.chain(others).copied().collect();
        legal_state(random, geometry.shape, &blocks)
    };
    (0..geometry.sets.into()).map(content).collect()
}
