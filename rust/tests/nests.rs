//! Item 7 of the requests: header visits, entries and counts with W, both versions of the file, and walks that keep W.

use second::case::{judge, read_content, write, Case, Content, Draft, FactRecord, Graph, Lists, LoopRecord, Paper};
use second::case::{Row, Rules, Scope, NO_LIMIT};
use second::machine::SetState;
use second::refusal::Refusal;
use second::walk::{is_walk, keeps_limits, Walker};
use std::collections::BTreeSet;

/// Nested loops, each from one node on to the last: B and W of each.
fn nest(loops: &[(u32, u32)]) -> Lists {
    let last = loops.len() as u16 - 1;
    let record = |(&(bound, visits), first): (&(u32, u32), u16)| LoopRecord { first, last, bound, visits };
    Lists {
        nodes: vec![7; loops.len()],
        edges: (0..last).map(|node| (node, node + 1)).collect(),
        loops: loops.iter().zip(0..).map(record).collect(),
    }
}

fn draft(version: u8, lists: Lists) -> Draft {
    Draft { version, policy: 0, ways: 2, sets: 1, lists, facts: Vec::new() }
}

fn counts(loops: &[(u32, u32)]) -> Vec<Option<u128>> {
    let graph = Graph::new(&nest(loops));
    (0..loops.len()).map(|node| graph.count(node)).collect()
}

fn entries(loops: &[(u32, u32)]) -> Vec<u128> {
    let graph = Graph::new(&nest(loops));
    graph.scopes().into_iter().map(|scope| Paper.entries(&graph, scope)).collect()
}

fn refused(draft: &Draft) -> Option<(u8, u64, u64)> {
    let Refusal { number, place, second } = judge(&draft.write(), &Paper).err()?;
    Some((number, place, second))
}

/// "an inner loop with B = 200 that runs 20,100 times in all, yet we charge 40,000"
#[test]
fn the_triangular_search() {
    assert_eq!(counts(&[(200, NO_LIMIT), (200, NO_LIMIT)]), [Some(200), Some(40_000)]);
    assert_eq!(counts(&[(200, NO_LIMIT), (200, 20_100)]), [Some(200), Some(20_100)]);
    assert_eq!(entries(&[(200, NO_LIMIT), (200, 20_100)]), [1, 1, 200]);
}

/// "the lesser of W and B times the header visits of the next loop out (1 outside all loops)"
#[test]
fn below_at_and_above() {
    let inner = |visits| counts(&[(10, NO_LIMIT), (5, visits)])[1];
    assert_eq!([inner(49), inner(50), inner(51), inner(1)], [Some(49), Some(50), Some(50), Some(1)]);
    assert_eq!(counts(&[(10, 4), (5, NO_LIMIT), (3, 7)]), [Some(4), Some(20), Some(7)]);
    assert_eq!(counts(&[(10, 4), (5, 3), (3, NO_LIMIT)]), [Some(4), Some(3), Some(9)]);
}

/// "its entries the lesser of W and that outer number"
#[test]
fn entries_are_limited_too() {
    assert_eq!(entries(&[(10, NO_LIMIT), (5, 9)]), [1, 1, 9]);
    assert_eq!(entries(&[(10, NO_LIMIT), (5, 10)]), [1, 1, 10]);
    assert_eq!(entries(&[(10, 6), (5, 8)]), [1, 1, 6]);
}

/// "10 is tested on the new count", and "4,294,967,295 says no such limit".
#[test]
fn the_largest_count() {
    let place = |loops: &[(u32, u32)]| refused(&draft(2, nest(loops)));
    let none = NO_LIMIT;
    assert_eq!(place(&[(65_535, none), (65_537, none)]), None);
    assert_eq!(place(&[(65_536, none), (65_536, none)]), Some((10, 1, 0)));
    assert_eq!(place(&[(65_536, none), (65_536, none - 1)]), None);
    assert_eq!(counts(&[(65_536, none), (65_536, none - 1)])[1], Some(4_294_967_294));
    // Inside, W brings the count back.
    assert_eq!(counts(&[(1_000_000, none), (1_000_000, none), (1_000_000, 7)]), [Some(1_000_000), None, Some(7)]);
    assert_eq!(place(&[(1_000_000, none), (1_000_000, none), (1_000_000, 7)]), Some((10, 1, 0)));
    assert_eq!(place(&[(1_000_000, none - 1); 64]), None);
}

/// "7 also for W = 0", in version 2 alone; "2 for versions other than 1 and 2".
#[test]
fn refusals() {
    let lists = nest(&[(3, NO_LIMIT), (3, 0)]);
    assert_eq!(refused(&draft(2, lists.clone())), Some((7, 1, 0)));
    assert_eq!(refused(&draft(1, lists)), None);
    for version in [0, 3, 255] {
        assert_eq!(refused(&draft(version, nest(&[(3, NO_LIMIT)]))), Some((2, 0, 0)));
    }
    let mut other = draft(1, nest(&[(3, NO_LIMIT)])).write();
    let at = other.len() - 5;
    other[at] = 2;
    assert_eq!(judge(&other, &Paper).err(), Some(Refusal::new(5, 0)));
}

/// "Version 1 is read as without W and gives its old numbers."
#[test]
fn version_1_is_without_w() {
    let lists = nest(&[(3, 1), (4, 2)]);
    let total = |draft: &Draft| judge(&draft.write(), &Paper).ok().map(|case| case.bounds(0, &Paper).total);
    assert_eq!(total(&draft(1, lists.clone())), Some(15));
    assert_eq!(total(&draft(2, lists)), Some(3));
    assert_eq!(total(&draft(2, nest(&[(3, NO_LIMIT), (4, NO_LIMIT)]))), Some(15));
}

/// "every bound uses the lesser of E and N in place of E": the inner loop's block is fetched less often than the middle
/// loop is entered.
#[test]
fn fewer_fetches_than_entries() {
    let empty = Row::Blocks(BTreeSet::new()).record();
    for (policy, limit) in [(0, 1), (0, 2), (1, 1), (1, 2), (1, 4), (2, 1), (2, 2), (2, 4)] {
        let mut lists = nest(&[(1_000, NO_LIMIT), (2, NO_LIMIT), (5, 3)]);
        lists.nodes = vec![65_535, 65_535, 7];
        let facts = vec![FactRecord { scope: 1, block: 7, limit, rows: vec![empty; 2] }];
        let file = Draft { policy, ways: 4, facts, ..draft(2, lists) }.write();
        let case = judge(&file, &Paper).ok().unwrap();
        assert_eq!(Paper.entries(&case.graph, Scope::Loop(1)), 1_000);
        let bounds = case.bounds(0, &Paper);
        assert_eq!((bounds.total, &bounds.facts[..]), (3, &[3][..]));
    }
}

fn content(version: u8, loops: &[u32]) -> Content {
    let of = Content::of(&draft(version, nest(&[(3, NO_LIMIT), (4, 9)])));
    Content { loops: loops.to_vec(), ..of }
}

/// "The writer is handed the version with the lists, and version 1 content carries no W."
#[test]
fn both_versions_are_written_and_read_back() {
    for (content, length) in [(content(1, &[0, 1, 3, 1, 1, 4]), 56), (content(2, &[0, 1, 3, NO_LIMIT, 1, 1, 4, 9]), 64)]
    {
        let mut out = [0; 64];
        assert_eq!(write(&content, &mut out), Ok(length));
        assert_eq!(out[length - 5], content.version);
        assert_eq!(read_content(&out[..length]), Ok(content.clone()));
        assert_eq!(write(&content, &mut out[..length - 1]), Err(Refusal::new(20, 0)));
    }
}

/// "2 for versions other than 1 and 2, in the writer too, as its first"
#[test]
fn the_writers_refusals() {
    let earns = |content: &Content| write(content, &mut [0; 64]).err().map(|refusal| (refusal.number, refusal.place));
    let two = content(2, &[0, 1, 3, NO_LIMIT, 1, 1, 4, 9]);
    assert_eq!(earns(&Content { version: 0, policy: 9, ..two.clone() }), Some((2, 0)));
    assert_eq!(earns(&Content { version: 3, ..two.clone() }), Some((2, 0)));
    assert_eq!(earns(&Content { policy: 9, ..two.clone() }), Some((3, 0)));
    assert_eq!(earns(&Content { version: 1, ..two }), Some((4, 0)));
    assert_eq!(earns(&content(2, &[0, 1, 3, 1, 1, 4])), Some((4, 0)));
    assert_eq!(earns(&content(2, &[0, 1, 3, NO_LIMIT, 1, 1, 4, 0])), Some((7, 1)));
    assert_eq!(earns(&content(2, &[0, 1, 3, 0, 2, 1, 4, 0])), Some((7, 0)));
}

/// Two blocks that push each other out, in a loop that a walk comes to again and again.
fn thrashing(visits: u32) -> Case {
    let lists = Lists {
        nodes: vec![65_535, 10, 1],
        edges: vec![(0, 1), (1, 2), (2, 0), (2, 1)],
        loops: vec![LoopRecord::new(0, 2, 3), LoopRecord { visits, ..LoopRecord::new(1, 2, 3) }],
    };
    judge(&Draft { ways: 1, ..draft(2, lists) }.write(), &Paper).ok().unwrap()
}

/// "Walks in demand 3 keep W too": one that does not exceeds what W allows.
#[test]
fn walks_keep_w() {
    let walk = [0, 1, 2, 1, 2, 1, 2, 0, 1, 2, 0, 1, 2];
    let [loose, exact, tight] = [6, 5, 4].map(thrashing);
    assert!(is_walk(&loose.graph, &walk) && keeps_limits(&loose.graph, &walk));
    assert!(keeps_limits(&exact.graph, &walk) && !keeps_limits(&tight.graph, &walk));
    for (case, exceeds) in [(&loose, false), (&exact, false), (&tight, true)] {
        let mut walker = Walker::new(case, &[SetState::EMPTY]);
        walk.iter().for_each(|&node| walker.visit(node));
        assert_eq!(walker.misses.total, 10);
        assert_eq!(!walker.misses.exceeding(&case.bounds(0, &Paper)).is_empty(), exceeds);
    }
}

/// A walker does not go where W ends, but on.
#[test]
fn a_walker_stops_at_w() {
    let case = thrashing(2);
    let mut walker = Walker::new(&case, &[SetState::EMPTY]);
    [0, 1, 2].into_iter().for_each(|node| walker.visit(node));
    assert_eq!(walker.choices(), [0, 1]);
    assert!(!walker.uses_up_visits());
    walker.visit(1);
    assert!(walker.uses_up_visits());
    walker.visit(2);
    assert_eq!(walker.choices(), [0]);
    walker.visit(0);
    assert!(walker.choices().is_empty());
}
