//! Item 10 of the requests, "Interrupts": the bounds with p, the walks that are interrupted, and the frame that carries p.

use second::case::{check, judge, Bounds, Case, Draft, FactRecord, Lists, LoopRecord, Paper, Row, Rules, NUMBERS};
use second::listing::listing;
use second::machine::{SetState, NONE};
use second::pipe::Request;
use second::walk::Walker;
use std::collections::BTreeSet;

fn blocks(list: &[u16]) -> [u16; 8] {
    Row::Blocks(BTreeSet::from_iter(list.iter().copied())).record()
}

/// The paper's "A file and its listing".
fn paper(policy: u8) -> Case {
    judge(&draft(policy).write(), &Paper).ok().unwrap()
}

fn draft(policy: u8) -> Draft {
    let lists = Lists {
        nodes: vec![NONE, 5, 6, NONE],
        edges: vec![(0, 1), (1, 2), (2, 1), (2, 3)],
        loops: vec![LoopRecord::new(1, 2, 10)],
    };
    let fact = |block, rows| FactRecord { scope: 0, block, limit: 2, rows };
    let facts = vec![fact(5, vec![blocks(&[6]), blocks(&[])]), fact(6, vec![blocks(&[]), blocks(&[5])])];
    Draft { version: 1, policy, ways: 2, sets: 1, lists, facts }
}

/// The total, and the bound of each of the two facts.
fn numbers(policy: u8, interruptions: u16) -> (u128, u128) {
    let Bounds { total, sets, facts } = paper(policy).bounds(interruptions, &Paper);
    assert_eq!((sets, facts[0]), (vec![total], facts[1]));
    (total, facts[0])
}

/// Item 12's words: "For the same file `bounds` prints total 8, set 8, facts 6 and 6."
#[test]
fn the_papers_file() {
    assert_eq!(listing(&draft(1).write(), 0), "total 4\nset 0 4\nfact 0 5\nfact 1 5\n");
    assert_eq!(listing(&draft(1).write(), 1), "total 8\nset 0 8\nfact 0 6\nfact 1 6\n");
}

/// "Every fact's E becomes the lesser of E + p and N, in fact bounds and in M(l), for each policy." E is 1, N is 10, l and k are 2.
#[test]
fn each_policy() {
    for policy in [0, 2, 3] {
        for (interruptions, bound) in [(0, 1), (1, 2), (8, 9), (9, 10), (10, 10), (65_535, 10)] {
            assert_eq!(numbers(policy, interruptions), (2 * bound, bound));
        }
    }
    // FIFO: E' + (10 - E') / 2, and the least of A, M(1) = 20 and 2 times M(2), which is 2 E'.
    let fifo = [(0, 4, 5), (1, 8, 6), (2, 12, 6), (3, 14, 7), (8, 18, 9), (9, 20, 10), (65_535, 20, 10)];
    for (interruptions, total, bound) in fifo {
        assert_eq!(numbers(1, interruptions), (total, bound));
    }
}

#[test]
fn below_at_and_above_n() {
    assert_eq!([6, 7, 8].map(|interruptions| Paper.entered(3, interruptions, 10)), [9, 10, 10]);
    assert_eq!(Paper.entered(12, 0, 10), 10);
    assert_eq!(Paper.entered(4_294_967_295, 65_535, 9_000_000_000), 4_295_032_830);
}

/// "Refusals: none new": the verdict is the same with every p.
#[test]
fn no_refusal_is_new() {
    let mut bad = draft(1);
    bad.facts[1].rows[1] = blocks(&[]);
    for interruptions in [0, 1, 65_535] {
        let refused = |file: &[u8], lent| check(file, interruptions, &mut vec![7; lent], &Paper).err();
        let number = |file: &[u8], lent| refused(file, lent).map(|refusal| refusal.number);
        assert_eq!(number(&draft(1).write(), NUMBERS), None);
        assert_eq!(number(&bad.write(), NUMBERS), Some(17));
        assert_eq!(number(&draft(1).write(), NUMBERS - 1), Some(20));
    }
}

/// Goes round the loop, and before each of the given visits a handler empties the set.
fn misses(policy: u8, before: &[usize]) -> u128 {
    let case = paper(policy);
    let mut walker = Walker::new(&case, &[SetState::EMPTY]);
    for (visit, node) in [0].into_iter().chain([1, 2].repeat(10)).enumerate() {
        let handlers = before.iter().filter(|&&place| place == visit);
        handlers.for_each(|_| walker.interrupt(&[SetState::EMPTY]));
        walker.visit(node);
    }
    assert_eq!(walker.interruptions.len(), before.len());
    for most in before.len()..=before.len() + 1 {
        assert!(walker.misses.exceeding(&case.bounds(most as u16, &Paper)).is_empty());
    }
    let exceeds = !walker.misses.exceeding(&case.bounds(0, &Paper)).is_empty();
    assert_eq!(exceeds, walker.misses.total > numbers(policy, 0).0);
    walker.misses.total
}

/// "only our own misses are counted": an interruption before the first fetch, or a second one at the same place, costs nothing here.
#[test]
fn a_walk_is_interrupted() {
    for policy in 0..4 {
        assert_eq!(misses(policy, &[]), 2);
        assert_eq!(misses(policy, &[0]), 2);
        assert_eq!(misses(policy, &[5]), 4);
        assert_eq!(misses(policy, &[5, 5]), 4);
        assert_eq!(misses(policy, &[5, 9]), 6);
        // Block 6 would have missed anyway, block 5 misses once more.
        assert_eq!(misses(policy, &[2]), 3);
    }
}

/// docs/PIPE.md: the check's interruptions, u16, stand right behind the operation's byte.
#[test]
fn the_frame_carries_p() {
    let frame = Request::Check { interruptions: 258, file: vec![81, 77], numbers: vec![3] }.encode();
    assert_eq!(frame, [5, 2, 1, 2, 0, 0, 0, 1, 0, 0, 0, 81, 77, 3, 0, 0, 0, 0, 0, 0, 0]);
}
