//! The caches: trace runs, single steps, addresses and set numbers.

use super::{Comparison, Settings};
use crate::generate::{damage::Spot, palette, sets, states, traces};
use crate::machine::{address::LINE_SIZES, SetState, Shape, NONE};
use crate::pipe::{room, Pipe, Request};
use crate::random::Random;

const SETS: [u8; 5] = [1, 2, 3, 7, 64];

pub fn run(pipe: &Pipe, settings: &Settings) -> Result<(), String> {
    let mut random = Random::for_part(settings.seed, "caches");
    let mut comparison = Comparison::new(pipe);
    for (policy, ways) in Shape::all_numbers() {
        for sets in SETS {
            runs(&mut random, &mut comparison, (policy, ways, sets), settings.accesses)?;
        }
        damaged_runs(&mut random, &mut comparison, (policy, ways))?;
        steps(&mut random, &mut comparison, (policy, ways), settings.steps)?;
        sweep(&mut random, &mut comparison, (policy, ways))?;
        holes(&mut comparison, (policy, ways))?;
    }
    longest_run(&mut random, &mut comparison)?;
    addresses(&mut random, &mut comparison)?;
    set_numbers(&mut random, &mut comparison)?;
    comparison.flush()?;
    report(&comparison)
}

fn report(comparison: &Comparison) -> Result<(), String> {
    let tally = &comparison.tally;
    println!("trace runs: {} accesses, {} of them misses", tally.accesses, tally.misses);
    println!("  for every policy and number of ways with {SETS:?} sets; refusals:\n{}", tally.table(4));
    println!("single steps, by refusal:\n{}", tally.table(1));
    println!("blocks of addresses, by refusal:\n{}", tally.table(2));
    println!("sets of blocks, by refusal:\n{}", tally.table(3));
    tally.demand(4, [0, 3, 20, 21], 50)?;
    tally.demand(1, [0, 3, 22, 21], 50)?;
    tally.demand(2, [0, 23, 21], 50)?;
    tally.demand(3, [0, 3, 21], 50)
}

/// A byte list with room past the end and noise in it.
fn marks(random: &mut Random, length: usize) -> Vec<u8> {
    let length = length + random.below(10);
    random.noise(length, |number| number as u8)
}

/// Runs of all lengths, until there are as many accesses as asked for.
fn runs(
    random: &mut Random,
    comparison: &mut Comparison,
    machine: (u8, u8, u8),
    accesses: usize,
) -> Result<(), String> {
    let (policy, ways, sets) = machine;
    let mut left = accesses;
    while left > 0 {
        let longest = random.pick(&[10, 100, 1_000, 20_000]);
        let length = random.within(0..=longest.min(left));
        let blocks = traces::trace(random, length, ways, sets);
        let marks = marks(random, length);
        comparison.add(Request::Trace { policy, ways, sets, blocks, marks })?;
        left -= length;
    }
    Ok(())
}

/// Runs with faults, one or several, so that their order shows.
fn damaged_runs(random: &mut Random, comparison: &mut Comparison, (policy, ways): (u8, u8)) -> Result<(), String> {
    for _ in 0..100 {
        let length = random.within(0..=30);
        let mut sets = sets(random);
        let mut blocks = traces::trace(random, length, ways, sets);
        let mut marks = marks(random, length);
        let (mut policy, mut ways) = (policy, ways);
        match random.below(12) {
            0 => policy = random.byte(),
            1 => ways = random.byte(),
            2 => sets = random.byte(),
            _ => {}
        }
        if random.chance(30) {
            marks.truncate(random.below(length));
        }
        for _ in 0..random.pick(&[0, 1, 1, 3]) {
            let spot = random.pick(&Spot::ALL);
            let place = spot.index(random, length);
            blocks.iter_mut().skip(place).take(1).for_each(|block| *block = NONE);
        }
        comparison.add(Request::Trace { policy, ways, sets, blocks, marks })?;
    }
    Ok(())
}

/// The longest trace that `pipe` has room for.
fn longest_run(random: &mut Random, comparison: &mut Comparison) -> Result<(), String> {
    let blocks = traces::trace(random, room::ACCESSES, 8, 64);
    let marks = random.noise(room::MARKS, |number| number as u8);
    for policy in [2, 3] {
        let (blocks, marks) = (blocks.clone(), marks.clone());
        comparison.add(Request::Trace { policy, ways: 8, sets: 64, blocks, marks })?;
    }
    Ok(())
}

/// Single steps on legal and illegal states, with faulty arguments among them.
fn steps(
    random: &mut Random,
    comparison: &mut Comparison,
    (policy, ways): (u8, u8),
    steps: usize,
) -> Result<(), String> {
    let shape = Shape::read(policy, ways).expect("one of the shapes there are");
    for _ in 0..steps {
        let blocks = palette(random, 12, 1);
        let damaged = random.chance(25);
        let state = if damaged { states::damaged_state } else { states::legal_state }(random, shape, &blocks);
        let (mut policy, mut ways) = (policy, ways);
        match random.below(40) {
            0 => policy = random.byte(),
            1 => ways = random.byte(),
            _ => {}
        }
        let block = if random.chance(5) { NONE } else { random.pick(&blocks) };
        comparison.add(Request::Step { policy, ways, state, block })?;
    }
    Ok(())
}

/// Every pattern of bits (NMRU, the tree), legal or not, or of empty lines (LRU, FIFO), each with a hit at every line and a miss.
fn sweep(random: &mut Random, comparison: &mut Comparison, (policy, ways): (u8, u8)) -> Result<(), String> {
    let shape = Shape::read(policy, ways).expect("one of the shapes there are");
    let blocks: Vec<u16> = (100..108).collect();
    for pattern in 0..1usize << ways {
        let mut state = states::legal_state(random, shape, &blocks);
        if states::patterns(shape) > 1 {
            state.bits = pattern as u8;
        } else {
            let empty = |line: usize| line >= shape.ways || pattern >> line & 1 == 1;
            state.lines = std::array::from_fn(|line| if empty(line) { NONE } else { blocks[line] });
        }
        let missing = 99;
        let fetched = state.lines.into_iter().filter(|&block| block != NONE).chain([missing]);
        for block in fetched {
            comparison.add(Request::Step { policy, ways, state: state.clone(), block })?;
        }
    }
    Ok(())
}

/// NMRU and the tree: every legal pattern of bits with every pattern of empty lines, and a block that misses.
fn holes(comparison: &mut Comparison, (policy, ways): (u8, u8)) -> Result<(), String> {
    let shape = Shape::read(policy, ways).expect("one of the shapes there are");
    if states::patterns(shape) == 1 {
        return Ok(());
    }
    let holes = 1usize << ways;
    let bits = 0..states::patterns(shape);
    for (bits, pattern) in bits.flat_map(|bits| (0..holes).map(move |pattern| (bits, pattern))) {
        let empty = |line: usize| line >= shape.ways || pattern >> line & 1 == 1;
        let lines = std::array::from_fn(|line| if empty(line) { NONE } else { 100 + line as u16 });
        comparison.add(Request::Step { policy, ways, state: SetState { lines, bits: bits as u8 }, block: 99 })?;
    }
    Ok(())
}

/// "The line size is 8, 16, 32, 64 or 128"; the largest block is 65,534.
fn addresses(random: &mut Random, comparison: &mut Comparison) -> Result<(), String> {
    for line_size in LINE_SIZES {
        let past = 65_535 * line_size;
        for address in [0, line_size - 1, line_size, past - line_size, past - 1, past, past + line_size, u32::MAX] {
            comparison.add(Request::Block { address, line_size })?;
        }
    }
    for _ in 0..20_000 {
        let any = random.draw() as u32;
        let unlisted = random.pick(&[0, 1, 2, 4, 7, 9, 24, 127, 129, 256, u32::MAX, any]);
        let line_size = if random.chance(80) { random.pick(&LINE_SIZES) } else { unlisted };
        let address = (random.draw() >> random.within(32..=50)) as u32;
        comparison.add(Request::Block { address, line_size })?;
    }
    Ok(())
}

/// Every number of sets, in range or not.
fn set_numbers(random: &mut Random, comparison: &mut Comparison) -> Result<(), String> {
    for sets in 0..=255 {
        let noise = random.noise(20, |number| number as u16);
        for block in [0, 1, 63, 64, 65, 65_534, NONE].into_iter().chain(noise) {
            comparison.add(Request::Set { block, sets })?;
        }
    }
    Ok(())
}
