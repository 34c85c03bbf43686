//! Item 8 of the requests: what is left of a file, what is dropped and for what, what is refused, and what stays as it was.

use second::case::{judge, salvage, Draft, FactRecord, Lists, LoopRecord, Paper, Row, RowRecord, TRAILER, WHOLE_GRAPH};
use second::refusal::Refusal;
use std::fs;
use std::path::Path;

const NONE: u16 = 65_535;
const BLOCKS: [u16; 5] = [2, 3, 4, 5, 6];

/// Loop 0 has nodes 0 to 2, loop 1 nodes 3 and 4; node i fetches block i + 2. LRU, five ways, one set.
fn two_loops(facts: Vec<FactRecord>) -> Draft {
    let lists = Lists {
        nodes: BLOCKS.to_vec(),
        edges: vec![(0, 1), (1, 2), (2, 0), (2, 3), (3, 4), (4, 3)],
        loops: vec![LoopRecord::new(0, 2, 10), LoopRecord::new(3, 4, 10)],
    };
    Draft { version: 2, policy: 0, ways: 5, sets: 1, lists, facts }
}

/// A fact that stands, with all blocks of the scope but its own in every row.
fn fact(scope: u16, block: u16) -> FactRecord {
    let nodes = if scope == 0 { 0..3 } else { 3..5 };
    let others = Row::Blocks(BLOCKS[nodes.clone()].iter().copied().filter(|&other| other != block).collect());
    FactRecord { scope, block, limit: 4, rows: vec![others.record(); nodes.len()] }
}

/// What is left, and the list of what is dropped. The room past both must stay.
fn salvaged(file: &[u8]) -> (Vec<u8>, Vec<[u64; 3]>) {
    let mut out = vec![7; file.len() + 3];
    let mut dropped = vec![9; 40];
    let (length, count) = salvage(file, &mut out, &mut dropped).unwrap();
    assert_eq!(out[length..], vec![7; file.len() + 3 - length]);
    assert_eq!(dropped[3 * count..], vec![9; 40 - 3 * count]);
    out.truncate(length);
    let list = dropped[..3 * count].chunks(3).map(|fact| fact.try_into().unwrap()).collect();
    assert!(judge(&out, &Paper).is_ok());
    (out, list)
}

/// Of these facts those at the places given are left, and the others are dropped so.
fn leaves(facts: Vec<FactRecord>, kept: &[usize], dropped: &[[u64; 3]]) {
    let left = kept.iter().map(|&place| facts[place].clone()).collect();
    assert_eq!(salvaged(&two_loops(facts).write()), (two_loops(left).write(), dropped.to_vec()));
}

fn with_row(fact: FactRecord, at: usize, row: RowRecord) -> FactRecord {
    let mut rows = fact.rows.clone();
    rows[at] = row;
    FactRecord { rows, ..fact }
}

const MANY: RowRecord = [8, NONE, NONE, NONE, NONE, NONE, NONE, NONE];
const NOT_SINCE: RowRecord = [9, NONE, NONE, NONE, NONE, NONE, NONE, NONE];
const EMPTY: RowRecord = [0, NONE, NONE, NONE, NONE, NONE, NONE, NONE];

fn example(name: &str) -> Vec<u8> {
    fs::read(Path::new(env!("CARGO_MANIFEST_DIR")).join("../examples").join(name)).unwrap()
}

/// "when the first file was already sound it is the same file"
#[test]
fn a_sound_file_stays_the_same() {
    for file in ["paper.case", "sets.case", "many.case", "triangle.case", "bound.case"].map(example) {
        assert_eq!(salvaged(&file), (file, Vec::new()));
    }
}

/// Three of its eight facts stand.
#[test]
fn the_example() {
    let (left, dropped) = salvaged(&example("bad-facts.case"));
    assert_eq!(dropped, [[12, 2, 0], [17, 3, 3], [13, 5, 0], [15, 6, 0], [11, 7, 0]]);
    let case = judge(&left, &Paper).unwrap();
    assert_eq!(case.facts.iter().map(|fact| fact.block).collect::<Vec<_>>(), [4, 5, 7]);
    assert_eq!((left.len(), case.bounds(0, &Paper).total), (342, 95));
}

/// "drops each fact that earns 12 to 14 or 16 to 18, 24 or 25", "each with the first number it earns and places".
#[test]
fn each_number_with_its_places() {
    let good = || [fact(0, 2), fact(1, 6)];
    let between = |bad: FactRecord, number, second| {
        let [first, last] = good();
        leaves(vec![first, bad, last], &[0, 2], &[[number, 1, second]]);
    };
    between(FactRecord { block: NONE, ..fact(0, 3) }, 12, 0);
    between(FactRecord { limit: 0, ..fact(0, 3) }, 12, 0);
    between(FactRecord { limit: 6, ..fact(0, 3) }, 12, 0);
    between(FactRecord { block: 1, ..fact(0, 3) }, 13, 0);
    between(fact(0, 2), 13, 0);
    between(FactRecord { block: 5, ..fact(0, 3) }, 14, 0);
    between(with_row(fact(1, 5), 1, [10; 8]), 16, 4);
    between(with_row(fact(0, 3), 0, EMPTY), 17, 2);
    between(with_row(fact(1, 5), 0, MANY), 18, 3);
    between(with_row(fact(0, 3), 2, NOT_SINCE), 24, 1);
    between(with_row(fact(0, 3), 0, MANY), 25, 0);
}

/// "An order fault (13) is judged against the last fact kept."
#[test]
fn order_is_judged_against_the_last_fact_kept() {
    leaves(vec![fact(0, 4), fact(0, 2), fact(0, 3), fact(1, 5)], &[0, 3], &[[13, 1, 0], [13, 2, 0]]);
    leaves(vec![fact(0, 2), with_row(fact(1, 6), 0, MANY), fact(0, 3)], &[0, 2], &[[25, 1, 4]]);
    leaves(vec![with_row(fact(1, 6), 0, [10; 8]), fact(0, 3), fact(0, 4)], &[1, 2], &[[16, 0, 3]]);
}

/// "Where a fact's scope number is bad its length is unknown, so it is treated as cut short." "facts after a cut one get 11"
#[test]
fn a_bad_scope_cuts_the_file() {
    for scope in [2, 3, WHOLE_GRAPH - 1] {
        let bad = FactRecord { scope, ..fact(0, 3) };
        leaves(vec![fact(0, 2), bad, fact(0, 4), fact(1, 5)], &[0], &[[12, 1, 0], [11, 2, 0], [11, 3, 0]]);
    }
}

/// A fact that is cut short earns the first number among 12, 13, 14 and 15, and where no head is left 11.
#[test]
fn cut_at_every_byte() {
    let numbers = [
        (fact(0, 3), 15),
        (FactRecord { limit: 0, ..fact(0, 3) }, 12),
        (FactRecord { block: 1, ..fact(0, 3) }, 13),
        (FactRecord { block: 5, ..fact(0, 3) }, 14),
        (with_row(fact(0, 3), 0, [10; 8]), 15),
    ];
    for (second, number) in numbers {
        let draft = two_loops(vec![fact(0, 2), second.clone(), fact(1, 6)]);
        let file = draft.write();
        let trailer = &file[file.len() - TRAILER..];
        for cut in draft.fact_start(1)..draft.fact_start(2) {
            let first = if cut < draft.fact_start(1) + 6 { 11 } else { number };
            let left = two_loops(vec![fact(0, 2)]).write();
            let cut_file = [&file[..cut], trailer].concat();
            assert_eq!(salvaged(&cut_file), (left, vec![[first, 1, 0], [11, 2, 0]]), "{second:?}");
        }
    }
}

/// "drops stray bytes"; and what the trailer does not count is no fact.
#[test]
fn stray_bytes() {
    let draft = two_loops(vec![fact(0, 2), fact(0, 3)]);
    let mut file = draft.write();
    let end = file.len() - TRAILER;
    file.splice(end..end, [1, 2, 3]);
    assert_eq!(salvaged(&file), (draft.write(), Vec::new()));
    let mut fewer = draft.write();
    fewer[end + 22] = 1;
    assert_eq!(salvaged(&fewer), (two_loops(vec![fact(0, 2)]).write(), Vec::new()));
    fewer[end + 22] = 4;
    assert_eq!(salvaged(&fewer), (draft.write(), vec![[11, 2, 0], [11, 3, 0]]));
}

/// "Refusals: 1 to 10 and 26 as in the check, then 20 if file or list does not fit."
#[test]
fn refusals() {
    let refused = |file: &[u8], bytes: usize, numbers: usize| {
        let (mut out, mut dropped) = (vec![7; bytes], vec![9; numbers]);
        let refusal = salvage(file, &mut out, &mut dropped).unwrap_err();
        assert_eq!((out, dropped), (vec![7; bytes], vec![9; numbers]));
        refusal
    };
    let bad = || with_row(fact(0, 3), 0, [10; 8]);
    let draft = two_loops(vec![fact(0, 2), bad(), bad()]);
    let (file, left) = (draft.write(), two_loops(vec![fact(0, 2)]).write().len());
    assert!(salvage(&file, &mut vec![0; left], &mut [0; 6]).is_ok());
    assert_eq!(refused(&file, left - 1, 6), Refusal::new(20, 0));
    assert_eq!(refused(&file, left, 5), Refusal::new(20, 0));
    assert_eq!(refused(&file, 0, 0), Refusal::new(20, 0));
    assert_eq!(refused(&[], 0, 0), Refusal::new(1, 0));
    let mut bad_edge = draft.clone();
    bad_edge.lists.edges[3] = (2, 9);
    assert_eq!(refused(&bad_edge.write(), 0, 0), Refusal::new(6, 3));
    let mut dead = draft.clone();
    dead.lists.edges.remove(3);
    assert_eq!(refused(&dead.write(), 0, 0), Refusal::new(26, 3));
}
