//! Item 1 of the requests: which number an edge earns, and the second place of each refusal that has one.

use second::case::{judge, Draft, FactRecord, Lists, LoopRecord, Paper, Row, RowRecord, WHOLE_GRAPH};
use second::generate::cases::{sound, Plan};
use second::generate::damage::{damage, RULES};
use second::listing::{listing, LONGEST_INPUT};
use second::machine::NONE;
use second::random::Random;
use second::refusal::Refusal;
use std::collections::BTreeSet;

/// Which of the loop's nodes fetches what; the edges are 0: 0-1, 1: 1-2, 2: 2-1, 3: 2-3, 4: 3-1, 5: 3-4.
const BLOCKS: [u16; 5] = [NONE, 5, 6, 7, NONE];

/// The loop is nodes 1 to 3, so that a node has another number in the graph than in the scope, and so has an edge.
fn looped(blocks: [u16; 5], facts: Vec<FactRecord>) -> Draft {
    let lists = Lists {
        nodes: blocks.to_vec(),
        edges: vec![(0, 1), (1, 2), (2, 1), (2, 3), (3, 1), (3, 4)],
        loops: vec![LoopRecord::new(1, 3, 10)],
    };
    Draft { version: 1, policy: 0, ways: 4, sets: 1, lists, facts }
}

fn fact(block: u16, rows: [RowRecord; 3]) -> FactRecord {
    FactRecord { scope: 0, block, limit: 3, rows: rows.to_vec() }
}

fn refused(draft: &Draft) -> Option<Refusal> {
    judge(&draft.write(), &Paper).err()
}

/// What a fact about block 5, fetched at node 1, earns with these rows.
fn earns(rows: [RowRecord; 3]) -> Option<(u8, u64)> {
    let refusal = refused(&looped(BLOCKS, vec![fact(5, rows)]))?;
    assert_eq!(refusal.place, 0);
    Some((refusal.number, refusal.second))
}

fn set(blocks: &[u16]) -> RowRecord {
    Row::Blocks(BTreeSet::from_iter(blocks.iter().copied())).record()
}

const MANY: RowRecord = [8, NONE, NONE, NONE, NONE, NONE, NONE, NONE];
const NOT_SINCE: RowRecord = [9, NONE, NONE, NONE, NONE, NONE, NONE, NONE];
const NO_ROW: RowRecord = [10, NONE, NONE, NONE, NONE, NONE, NONE, NONE];

#[test]
fn sound_rows_are_accepted() {
    assert_eq!(earns([set(&[6, 7]), set(&[]), set(&[6])]), None);
}

/// "16 and 18 add the least such node": its number, not its index in the scope.
#[test]
fn a_row_that_is_not_sound() {
    assert_eq!(earns([NO_ROW, set(&[]), set(&[6])]), Some((16, 1)));
    assert_eq!(earns([set(&[6, 7]), NO_ROW, NO_ROW]), Some((16, 2)));
    assert_eq!(earns([set(&[6, 7]), set(&[]), set(&[5])]), Some((16, 3)));
}

/// "17 is kept for a set followed by 9 or by a set that lacks a block".
#[test]
fn a_set_is_not_kept() {
    assert_eq!(earns([set(&[6, 7]), set(&[]), NOT_SINCE]), Some((17, 3)));
    assert_eq!(earns([set(&[6, 7]), set(&[]), set(&[])]), Some((17, 3)));
    assert_eq!(earns([set(&[6]), set(&[]), set(&[6])]), Some((17, 4)));
    assert_eq!(earns([set(&[7]), set(&[]), set(&[6])]), Some((17, 2)));
}

/// "24 for "not since b" after a fetch of b".
#[test]
fn not_since_after_b() {
    assert_eq!(earns([set(&[6, 7]), NOT_SINCE, set(&[6])]), Some((24, 1)));
    assert_eq!(earns([NOT_SINCE, NOT_SINCE, NOT_SINCE]), Some((24, 1)));
}

/// "25 for "many" followed by anything else".
#[test]
fn many_is_not_kept() {
    assert_eq!(earns([set(&[6, 7]), set(&[]), MANY]), Some((25, 4)));
    assert_eq!(earns([NOT_SINCE, MANY, MANY]), Some((25, 2)));
    assert_eq!(earns([set(&[6, 7]), MANY, NOT_SINCE]), Some((25, 2)));
}

/// "16 and 18 add the least such node".
#[test]
fn many_where_b_is_fetched() {
    assert_eq!(earns([MANY, set(&[]), set(&[6])]), Some((18, 1)));
    let twice = |rows| refused(&looped([NONE, 5, 6, 5, NONE], vec![fact(5, rows)]));
    assert_eq!(twice([set(&[6]), MANY, MANY]), Some(Refusal::new(25, 0).at(2)));
    assert_eq!(twice([set(&[6]), set(&[]), MANY]), Some(Refusal::new(18, 0).at(3)));
    assert_eq!(twice([MANY, MANY, MANY]), Some(Refusal::new(18, 0).at(1)));
}

/// "within one fact the least edge decides", whichever of the three it breaks.
#[test]
fn the_least_edge_decides() {
    let of_7 = |rows| refused(&looped(BLOCKS, vec![fact(7, rows)]));
    assert_eq!(earns([set(&[6, 7]), NOT_SINCE, MANY]), Some((24, 1)));
    assert_eq!(earns([set(&[6]), MANY, set(&[6])]), Some((25, 2)));
    assert_eq!(earns([set(&[7]), set(&[]), MANY]), Some((17, 2)));
    assert_eq!(of_7([NOT_SINCE, set(&[5]), set(&[5, 6])]), Some(Refusal::new(17, 0).at(2)));
    assert_eq!(of_7([NOT_SINCE, MANY, MANY]), Some(Refusal::new(25, 0).at(2)));
    assert_eq!(of_7([NOT_SINCE, NOT_SINCE, set(&[])]), Some(Refusal::new(24, 0).at(4)));
}

/// 16 over all rows, then the edges, then 18: "all three add the edge and stand at 17's old place before 18".
#[test]
fn rows_come_before_edges_and_edges_before_18() {
    assert_eq!(earns([set(&[6, 7]), NOT_SINCE, NO_ROW]), Some((16, 3)));
    assert_eq!(earns([MANY, NO_ROW, set(&[6])]), Some((16, 2)));
    // Node 1 fetches b, so its row 8 asks nothing of the edge from it: 24, not 25.
    assert_eq!(earns([MANY, NOT_SINCE, set(&[6])]), Some((24, 1)));
    assert_eq!(earns([MANY, set(&[]), NOT_SINCE]), Some((17, 3)));
}

/// "the order among facts stands": an earlier fact's 18 comes before a later one's 16.
#[test]
fn the_order_among_facts_stands() {
    let sound = [set(&[6, 7]), set(&[]), set(&[6])];
    let two = |first, second| refused(&looped(BLOCKS, vec![fact(5, first), fact(7, second)]));
    assert_eq!(two([MANY, set(&[]), set(&[6])], [NO_ROW, NO_ROW, NO_ROW]), Some(Refusal::new(18, 0).at(1)));
    assert_eq!(two(sound, [NOT_SINCE, MANY, MANY]), Some(Refusal::new(25, 1).at(2)));
    let gathered = set(&[5, 6]);
    assert_eq!(two(sound, [gathered; 3]), None);
    assert_eq!(two(sound, [gathered, gathered, NOT_SINCE]), Some(Refusal::new(17, 1).at(3)));
}

/// Edges that leave the scope have no rule; in the whole graph they are inside it.
#[test]
fn edges_that_leave_the_scope_have_no_rule() {
    let rows = [NOT_SINCE, set(&[6, 7]), set(&[]), set(&[6]), NOT_SINCE];
    let fact = FactRecord { scope: WHOLE_GRAPH, block: 5, limit: 3, rows: rows.to_vec() };
    assert_eq!(refused(&looped(BLOCKS, vec![fact])), Some(Refusal::new(17, 0).at(5)));
}

/// "An accepted file's second place is 0, and so is that of every refusal not named here".
#[test]
fn every_other_second_place_is_0() {
    let mut random = Random::for_part(7, "second places");
    for turn in 0..2_000 {
        let plan = Plan::roomy(&mut random);
        let draft = sound(&mut random, &plan, &Paper);
        let (file, _) = damage(&mut random, &draft, &[RULES[turn % RULES.len()]]);
        if let Err(refusal) = judge(&file, &Paper) {
            assert!(refusal.second == 0 || matches!(refusal.number, 16..=18 | 24 | 25), "{refusal:?}");
        }
    }
}

/// "A printed refusal ends with the second place: `refused 28 0 0`."
#[test]
fn a_refusal_is_printed_with_both_places() {
    let broken = looped(BLOCKS, vec![fact(5, [set(&[6, 7]), set(&[]), MANY])]).write();
    assert_eq!(listing(&broken, 0), "refused 25 0 4\n");
    assert_eq!(listing(&[], 0), "refused 1 0 0\n");
    assert_eq!(listing(&vec![0; LONGEST_INPUT + 1], 0), "refused 28 0 0\n");
}
