//! Item 6 of the requests: what the finder finds, what it refuses and in which order, and what it leaves alone.

use second::case::{find, judge, Draft, FactRecord, Lists, LoopRecord, Paper, RowRecord, WHOLE_GRAPH};
use second::refusal::Refusal;
use std::fs;
use std::path::Path;

const NONE: u16 = 65_535;

fn example(name: &str) -> Vec<u8> {
    fs::read(Path::new(env!("CARGO_MANIFEST_DIR")).join("../examples").join(name)).unwrap()
}

/// Nodes in a row, and from the last of each loop back to its header.
fn looped(ways: u8, nodes: &[u16], loops: &[(u16, u16)]) -> Draft {
    let back = loops.iter().map(|&(first, last)| (last, first));
    let mut edges: Vec<(u16, u16)> = (1..nodes.len() as u16).map(|node| (node - 1, node)).chain(back).collect();
    edges.sort();
    let loops = loops.iter().map(|&(first, last)| LoopRecord::new(first, last, 10)).collect();
    let lists = Lists { nodes: nodes.to_vec(), edges, loops };
    Draft { version: 1, policy: 0, ways, sets: 1, lists, facts: Vec::new() }
}

fn row(number: u16, blocks: &[u16]) -> RowRecord {
    let mut row = [NONE; 8];
    row[0] = number;
    row[1..=blocks.len()].copy_from_slice(blocks);
    row
}

fn set(blocks: &[u16]) -> RowRecord {
    row(blocks.len() as u16, blocks)
}

/// The limit and the rows; room past the rows must stay.
fn found(draft: &Draft, scope: u16, block: u16, nodes: usize) -> Option<(usize, Vec<RowRecord>)> {
    let mut rows = vec![7; 8 * nodes + 5];
    let limit = find(&draft.write(), scope, block, &mut rows).unwrap();
    assert_eq!(rows[8 * nodes..], [7; 5]);
    let records = rows[..8 * nodes].chunks(8).map(|row| row.try_into().unwrap()).collect();
    if limit.is_none() {
        assert_eq!(rows, vec![7; 8 * nodes + 5]);
    }
    limit.map(|limit| (limit, records))
}

fn refused(file: &[u8], scope: u16, block: u16, room: usize) -> (u8, u64, u64) {
    let mut rows = vec![7; room];
    let Refusal { number, place, second } = find(file, scope, block, &mut rows).unwrap_err();
    assert_eq!(rows, vec![7; room]);
    (number, place, second)
}

/// The evidence of "A file and its listing".
#[test]
fn the_papers_facts_are_found() {
    let file = example("paper.case");
    let mut rows = [7; 17];
    assert_eq!(find(&file, 0, 5, &mut rows), Ok(Some(2)));
    assert_eq!(rows[..16], [set(&[6]), set(&[])].concat());
    assert_eq!(rows[16], 7);
    assert_eq!(find(&file, 0, 6, &mut rows), Ok(Some(2)));
    assert_eq!(rows[..16], [set(&[]), set(&[5])].concat());
}

/// "9 where b has not been fetched", ""many" where they hold as many blocks as the limit found or more".
#[test]
fn not_since_and_many() {
    let straight = looped(2, &[1, 2, 3, 4], &[]);
    let (many, not_since) = (row(8, &[]), row(9, &[]));
    assert_eq!(found(&straight, WHOLE_GRAPH, 2, 4), Some((1, vec![not_since, not_since, set(&[]), many])));
    assert_eq!(found(&straight, WHOLE_GRAPH, 1, 4), Some((1, vec![not_since, set(&[]), many, many])));
}

/// "the sets gathered over all walks": b is met again on a short way and on a long one.
#[test]
fn all_walks_together() {
    let mut draft = looped(4, &[1, 2, 3, 4], &[(0, 3)]);
    draft.lists.edges = vec![(0, 1), (0, 2), (1, 3), (2, 3), (3, 0)];
    let rows = vec![set(&[2, 3, 4]), set(&[]), set(&[]), set(&[2, 3])];
    assert_eq!(found(&draft, 0, 1, 4), Some((4, rows)));
    draft.ways = 3;
    assert_eq!(found(&draft, 0, 1, 4), None);
}

/// What the outer loop fetches does not gather in the inner one.
#[test]
fn loops_within_loops() {
    let draft = looped(4, &[1, 2, 3, 2, 4], &[(0, 4), (1, 3), (2, 2)]);
    assert_eq!(found(&draft, 1, 2, 3), Some((2, vec![set(&[]), set(&[3]), set(&[3])])));
    assert_eq!(found(&draft, 2, 3, 1), Some((1, vec![set(&[])])));
    let rows = vec![set(&[4]), set(&[1, 4]), set(&[3]), set(&[3]), set(&[])];
    assert_eq!(found(&draft, 0, 2, 5), Some((3, rows)));
}

/// Blocks of other sets do not gather.
#[test]
fn other_sets_do_not_count() {
    let draft = Draft { sets: 2, ..looped(2, &[1, 2, 4, 6, 3], &[(0, 4)]) };
    let rows = vec![set(&[3]), set(&[]), set(&[]), set(&[]), set(&[])];
    assert_eq!(found(&draft, 0, 1, 5), Some((2, rows)));
}

/// "The rows go through the same check as anyone's."
#[test]
fn what_is_found_is_accepted() {
    let mut draft = looped(4, &[1, 2, 3, 2, 4], &[(0, 4), (1, 3)]);
    let (limit, rows) = found(&draft, 1, 2, 3).unwrap();
    let fact = |limit, rows| FactRecord { scope: 1, block: 2, limit, rows };
    draft.facts = vec![fact(limit as u16, rows.clone())];
    assert_eq!(judge(&draft.write(), &Paper).err(), None);
    draft.facts = vec![fact(limit as u16 - 1, rows)];
    assert_eq!(judge(&draft.write(), &Paper).err().map(|refusal| refusal.number), Some(16));
}

/// "1 to 10 and 26 for the graph, then 12 for a bad scope or block, 14, and 20", "the last three have place 0".
#[test]
fn each_refusal() {
    let draft = looped(2, &[1, 2, 3], &[(1, 2)]);
    let file = draft.write();
    assert_eq!(refused(&file[1..], 0, 2, 16), (5, 0, 0));
    assert_eq!(refused(&[], 0, 2, 16), (1, 0, 0));
    assert_eq!(refused(&file, 1, 2, 16), (12, 0, 0));
    assert_eq!(refused(&file, 65_534, 2, 16), (12, 0, 0));
    assert_eq!(refused(&file, 0, NONE, 16), (12, 0, 0));
    assert_eq!(refused(&file, 0, 1, 16), (14, 0, 0));
    assert_eq!(refused(&file, WHOLE_GRAPH, 4, 24), (14, 0, 0));
    assert_eq!(refused(&file, 0, 2, 15), (20, 0, 0));
    assert_eq!(refused(&file, WHOLE_GRAPH, 2, 23), (20, 0, 0));
    let mut dead = draft.clone();
    dead.lists.edges.remove(1);
    assert_eq!(refused(&dead.write(), 0, 2, 16), (26, 2, 0));
    let mut heavy = looped(2, &[1, 2, 3], &[(0, 2), (1, 2)]);
    heavy.lists.loops.iter_mut().for_each(|record| record.bound = 1_000_000);
    assert_eq!(refused(&heavy.write(), 5, NONE, 0), (10, 1, 0));
}

#[test]
fn the_order() {
    let mut draft = looped(2, &[1, 2, 3], &[(1, 2)]);
    let file = draft.write();
    assert_eq!(refused(&file, 9, 1, 0), (12, 0, 0));
    assert_eq!(refused(&file, 0, 1, 0), (14, 0, 0));
    draft.lists.edges[0] = (0, 2);
    assert_eq!(refused(&draft.write(), 9, NONE, 0), (8, 0, 0));
}

/// What stands behind the loops is not looked at: neither the facts nor stray bytes.
#[test]
fn the_facts_are_not_looked_at() {
    let file = example("paper.case");
    let mut broken = file.clone();
    broken[32..108].fill(255);
    let mut stray = file.clone();
    stray.splice(108..108, [1, 2, 3]);
    for file in [file, broken, stray, example("broken.case")] {
        let mut rows = [7; 16];
        let block = if file.len() > 200 { 9 } else { 5 };
        let scope = u16::from(block == 9);
        assert_eq!(find(&file, scope, block, &mut rows), Ok(Some(2)));
    }
}
