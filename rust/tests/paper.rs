//! The paper's checked numbers, one test each.

use second::case::{check, judge, Draft, FactRecord, Lists, LoopRecord, Paper, Row, Rules, Stakes, NUMBERS};
use second::machine::{step::step, trace::trace_run, Outcome, Policy, SetState, NONE};
use second::refusal::Refusal;
use std::collections::BTreeSet;

fn state(lines: &[u16], bits: u8) -> SetState {
    let mut all = [NONE; 8];
    all[..lines.len()].copy_from_slice(lines);
    SetState { lines: all, bits }
}

fn blocks(list: &[u16]) -> [u16; 8] {
    Row::Blocks(BTreeSet::from_iter(list.iter().copied())).record()
}

/// "A file and its listing".
fn listing(policy: u8, bound: u32) -> Draft {
    let fact = |block, rows| FactRecord { scope: 0, block, limit: 2, rows };
    Draft {
        version: 1,
        policy,
        ways: 2,
        sets: 1,
        lists: Lists {
            nodes: vec![NONE, 5, 6, NONE],
            edges: vec![(0, 1), (1, 2), (2, 1), (2, 3)],
            loops: vec![LoopRecord::new(1, 2, bound)],
        },
        facts: vec![fact(5, vec![blocks(&[6]), blocks(&[])]), fact(6, vec![blocks(&[]), blocks(&[5])])],
    }
}

fn refused(file: &[u8]) -> Option<Refusal> {
    judge(file, &Paper).err()
}

#[test]
fn number_1() {
    let g = [(2, 2), (4, 2), (4, 4), (8, 3), (8, 6)].map(|(ways, limit)| Paper.group(ways, limit));
    assert_eq!(g, [2, 4, 2, 4, 2]);
}

#[test]
fn number_2() {
    let bound =
        |limit, entries, fetches| Paper.fact_bound(Stakes { policy: Policy::Fifo, ways: 4, limit, entries, fetches });
    assert_eq!([bound(2, 1, 100), bound(2, 3, 3), bound(1, 1, 100)], [25, 3, 1]);
}

#[test]
fn number_3() {
    assert_eq!([Paper.floor(4, 2, 6), Paper.floor(4, 4, 6)], [8, 24]);
}

#[test]
fn number_4() {
    let (outcome, after) = step(2, 4, &state(&[10, 11, 12, 13], 9), 20).unwrap();
    assert_eq!((outcome, &after), (Outcome::Miss, &state(&[10, 20, 12, 13], 11)));
    let (outcome, after) = step(2, 4, &after, 13).unwrap();
    assert_eq!((outcome, &after), (Outcome::Hit, &state(&[10, 20, 12, 13], 11)));
    let (outcome, after) = step(2, 4, &after, 12).unwrap();
    assert_eq!((outcome, &after), (Outcome::Hit, &state(&[10, 20, 12, 13], 4)));
}

#[test]
fn number_5() {
    let before = state(&[11, 10], 0);
    assert_eq!(step(1, 2, &before, 10), Ok((Outcome::Hit, before.clone())));
    assert_eq!(step(0, 2, &before, 10), Ok((Outcome::Hit, state(&[10, 11], 0))));
}

#[test]
fn number_6() {
    let file = listing(1, 10).write();
    assert_eq!(file.len(), 140);
    let mut numbers = [9; NUMBERS + 2];
    assert_eq!(check(&file, 0, &mut numbers, &Paper), Ok(()));
    let mut expected = [0; NUMBERS + 2];
    (expected[0], expected[1], expected[65], expected[66]) = (4, 4, 5, 5);
    expected[NUMBERS..].fill(9);
    assert_eq!(numbers, expected);
    let total = |policy| judge(&listing(policy, 10).write(), &Paper).ok().map(|case| case.bounds(0, &Paper).total);
    assert_eq!([total(0), total(2)], [Some(2), Some(2)]);
}

#[test]
fn number_7() {
    let trace = [1, 2, 3, 3, 2, 4, 2, 5, 2, 6, 6, 2];
    let run = |policy| trace_run(policy, 2, 1, &trace, &mut [0; 12]);
    assert_eq!([run(0), run(1), run(2)], [Ok(6), Ok(8), Ok(6)]);
}

#[test]
fn number_8() {
    assert_eq!(trace_run(0, 2, 1, &[], &mut []), Ok(0));
    assert_eq!(trace_run(2, 1, 1, &[], &mut []), Err(Refusal::new(3, 0)));
    assert_eq!(step(2, 1, &state(&[], 0), 0), Err(Refusal::new(3, 0)));
    assert_eq!(refused(&listing(1, 1_000_000).write()), None);
    assert_eq!(refused(&listing(1, 1_000_001).write()), Some(Refusal::new(7, 0)));
    let mut nested = listing(1, 1_000_000);
    nested.lists.loops.push(LoopRecord::new(2, 2, 1_000_000));
    assert_eq!(refused(&nested.write()), Some(Refusal::new(10, 2)));
    assert_eq!(refused(&listing(1, 10).write()[109..]), Some(Refusal::new(1, 0)));
}

/// "Easy ways to go wrong": "Case 7: block 2 misses once in LRU and three times in FIFO."
#[test]
fn block_2_of_number_7() {
    let trace = [1, 2, 3, 3, 2, 4, 2, 5, 2, 6, 6, 2];
    let misses_of_2 = |policy| {
        let mut marks = [0; 12];
        trace_run(policy, 2, 1, &trace, &mut marks).unwrap();
        trace.iter().zip(marks).filter(|&(&block, mark)| block == 2 && mark == 1).count()
    };
    assert_eq!([misses_of_2(0), misses_of_2(1)], [1, 3]);
}
