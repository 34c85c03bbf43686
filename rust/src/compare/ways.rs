//! All ways in one pass: the eight counts, and the eight trace runs that they stand for.

use super::{agree, Settings};
use crate::generate::{damage::Spot, sets, traces};
use crate::machine::NONE;
use crate::pipe::{room, Answer, Body, Pipe, Request};
use crate::random::Random;
use crate::show;
use crate::tally::Tally;

/// How many traces go into one conversation, each with its eight runs.
const TOGETHER: usize = 40;
/// How often each refusal must be seen.
const AT_LEAST: u64 = 50;

#[derive(Default)]
struct Seen {
    tally: Tally,
    accesses: u64,
    /// Traces in which the count falls from w to w + 1 ways.
    falls: [u64; 7],
}

pub fn run(pipe: &Pipe, settings: &Settings) -> Result<(), String> {
    let mut random = Random::for_part(settings.seed, "ways");
    let mut seen = Seen::default();
    let mut left = settings.counted;
    while left > 0 {
        let traces = (0..left.min(TOGETHER)).map(|_| any(&mut random)).collect::<Vec<_>>();
        left -= traces.len();
        seen.together(pipe, &traces)?;
    }
    let longest = traces::trace(&mut random, room::ACCESSES, 8, 64);
    seen.together(pipe, &[(64, longest)])?;
    println!("traces for all ways: {} accesses, by refusal:\n{}", seen.accesses, seen.tally.table(9));
    println!("  with fewer misses at one way more, from one way to seven: {:?}", seen.falls);
    seen.tally.demand(9, [0, 3, 21], AT_LEAST)?;
    match seen.falls.iter().all(|&falls| falls >= AT_LEAST) {
        true => Ok(()),
        false => Err("too few traces miss less at one way more".to_string()),
    }
}

/// A trace, with faults or without, so that their order shows.
fn any(random: &mut Random) -> (u8, Vec<u16>) {
    let longest = random.pick(&[10, 100, 1_000, 4_000]);
    let length = random.within(0..=longest);
    let mut sets = sets(random);
    let ways = random.within(1..=10) as u8;
    let mut blocks = traces::trace(random, length, ways, sets);
    if random.chance(15) {
        let any = random.byte();
        sets = random.pick(&[0, 65, 128, 255, any]);
    }
    for _ in 0..random.pick(&[0, 0, 0, 0, 1, 3]) {
        let spot = random.pick(&Spot::ALL);
        let place = spot.index(random, length);
        blocks.iter_mut().skip(place).take(1).for_each(|block| *block = NONE);
    }
    (sets, blocks)
}

/// The one request, and the trace runs of LRU with one way to eight, lent enough.
fn requests((sets, blocks): &(u8, Vec<u16>)) -> Vec<Request> {
    let trace =
        |ways| Request::Trace { policy: 0, ways, sets: *sets, blocks: blocks.clone(), marks: vec![7; blocks.len()] };
    let all = Request::Ways { sets: *sets, blocks: blocks.clone() };
    [all].into_iter().chain((1..=8).map(trace)).collect()
}

impl Seen {
    fn together(&mut self, pipe: &Pipe, traces: &[(u8, Vec<u16>)]) -> Result<(), String> {
        let asked: Vec<Request> = traces.iter().flat_map(requests).collect();
        let answers = agree(pipe, &asked)?;
        for (asked, answers) in asked.chunks(9).zip(answers.chunks(9)) {
            self.tally.add(&asked[0], &answers[0]);
            self.hold(answers).map_err(|fault| format!("{fault}\n{}", show::request(&asked[0])))?;
        }
        self.accesses += traces.iter().map(|(_, blocks)| blocks.len() as u64).sum::<u64>();
        Ok(())
    }

    /// "They are proved equal to eight LRU trace runs from empty sets, and no count is larger than that for one way less."
    fn hold(&mut self, answers: &[Answer]) -> Result<(), String> {
        let Body::Ways { counts } = &answers[0].body else { unreachable!("the first answer is that for all ways") };
        for (ways, (count, run)) in (1..).zip(counts.iter().zip(&answers[1..])) {
            let Body::Trace { misses, .. } = &run.body else { unreachable!("the others are those of trace runs") };
            if (count, answers[0].refusal) != (misses, run.refusal) {
                return Err(format!("{ways} ways: {count} misses in one pass, {misses} in a trace run"));
            }
        }
        for (falls, pair) in self.falls.iter_mut().zip(counts.windows(2)) {
            if pair[1] > pair[0] {
                return Err(format!("a count grows with the ways: {counts:?}"));
            }
            *falls += u64::from(pair[1] < pair[0]);
        }
        Ok(())
    }
}
