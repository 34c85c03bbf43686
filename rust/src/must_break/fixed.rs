//! Small files, one for each wrong rule, kept so that everyone sees the same ones. The search finds others.

use super::Break;
use crate::case::{Draft, FactRecord, Lists, LoopRecord, Row, WHOLE_GRAPH};
use crate::generate::graphs::steps;
use crate::machine::{SetState, NONE};
use crate::walk::Interruption;

/// The block that each file's fact is about.
const B: u16 = 10;

/// A break for each wrong rule, in the order of `wrong::ALL`.
pub fn all() -> Vec<Break> {
    vec![
        fifo_again(),
        nmru_thrice(),
        nmru_thrice(),
        fifo_again(),
        entered_twice(),
        fifo_again(),
        own_block(),
        visited_in_each_stay(),
        visited_in_each_stay(),
        left_early(),
        tree_again(),
        interrupted(0),
        interrupted(1),
        both_lost(),
    ]
}

fn blocks(list: &[u16]) -> Row {
    Row::Blocks(list.iter().copied().collect())
}

/// Nodes one behind the other, without loops, and one fact over the whole graph; the walk goes through all of them.
fn chain((policy, ways): (u8, u8), nodes: &[u16], limit: u16, rows: &[Row], start: SetState) -> Break {
    let lists = Lists { nodes: nodes.to_vec(), edges: steps(nodes.len() as u16).collect(), loops: Vec::new() };
    let rows = rows.iter().map(Row::record).collect();
    let facts = vec![FactRecord { scope: WHOLE_GRAPH, block: B, limit, rows }];
    Break {
        walk: (0..nodes.len()).collect(),
        draft: Draft { version: 1, policy, ways, sets: 1, lists, facts },
        contents: vec![start],
        interruptions: Vec::new(),
    }
}

/// A hit does not move b, so two others push it out although b was fetched between them.
fn fifo_again() -> Break {
    let rows = [Row::NotSince, blocks(&[]), blocks(&[1]), blocks(&[]), blocks(&[2])];
    chain((1, 2), &[B, 1, B, 2, B], 2, &rows, SetState::EMPTY)
}

/// b misses into line 0, then into line 1, then into line 2: each time the two others have flipped the bits.
fn nmru_thrice() -> Break {
    let rows = [
        Row::NotSince,
        blocks(&[]),
        blocks(&[1]),
        blocks(&[1, 2]),
        blocks(&[]),
        blocks(&[1]),
        blocks(&[]),
        blocks(&[2]),
        blocks(&[2, 3]),
    ];
    // No line is empty: b is lost only where the bits decide.
    let mut start = SetState { bits: 2, ..SetState::EMPTY };
    start.lines[..3].copy_from_slice(&[7, 8, 9]);
    chain((2, 3), &[B, 1, 2, B, 1, B, 2, 3, B], 3, &rows, start)
}

/// Four ways. b misses into line 0; 1 and 2 take lines 2 and 1, and then all bits point to line 3; the hit of 1 at line 2 turns
/// the root to the lower lines, where b stands and line 1 came last: 3 takes b's line.
fn tree_again() -> Break {
    let rows = [Row::NotSince, blocks(&[]), blocks(&[1]), blocks(&[1, 2]), blocks(&[1, 2]), blocks(&[1, 2, 3])];
    chain((3, 4), &[B, 1, 2, 1, 3, B], 4, &rows, SetState::EMPTY)
}

/// The inner loop is entered once for each time around the outer one, and each time b has been lost.
fn entered_twice() -> Break {
    let lists = Lists {
        nodes: vec![1, B],
        edges: vec![(0, 1), (1, 0), (1, 1)],
        loops: vec![LoopRecord::new(0, 1, 2), LoopRecord::new(1, 1, 2)],
    };
    let facts = vec![FactRecord { scope: 1, block: B, limit: 1, rows: vec![blocks(&[]).record()] }];
    let draft = Draft { version: 1, policy: 0, ways: 1, sets: 1, lists, facts };
    Break { draft, walk: vec![0, 1, 1, 0, 1, 1], contents: vec![SetState::EMPTY], interruptions: Vec::new() }
}

/// Node 1 fetches another block between the two fetches of b, and the last row does not say so.
fn own_block() -> Break {
    chain((0, 1), &[B, 1, B], 1, &[Row::NotSince, blocks(&[]), blocks(&[])], SetState::EMPTY)
}

/// Two blocks push each other out, twice in each of two stays. W allows the inner loop's header just that many visits, and
/// the outer loop's W is no limit of the inner loop's.
fn visited_in_each_stay() -> Break {
    let lists = Lists {
        nodes: vec![NONE, B, 1],
        edges: vec![(0, 1), (1, 2), (2, 0), (2, 1)],
        loops: vec![
            LoopRecord { visits: 2, ..LoopRecord::new(0, 2, 2) },
            LoopRecord { visits: 4, ..LoopRecord::new(1, 2, 2) },
        ],
    };
    let draft = Draft { version: 2, policy: 0, ways: 1, sets: 1, lists, facts: Vec::new() };
    Break {
        draft,
        walk: vec![0, 1, 2, 1, 2, 0, 1, 2, 1, 2],
        contents: vec![SetState::EMPTY],
        interruptions: Vec::new(),
    }
}

/// Each stay in the inner loop takes one of W visits, not B of them: so there are three stays, and each misses.
fn left_early() -> Break {
    let lists = Lists {
        nodes: vec![1, B],
        edges: vec![(0, 1), (1, 0), (1, 1)],
        loops: vec![LoopRecord::new(0, 1, 3), LoopRecord { visits: 3, ..LoopRecord::new(1, 1, 2) }],
    };
    let facts = vec![FactRecord { scope: 1, block: B, limit: 1, rows: vec![blocks(&[]).record()] }];
    let draft = Draft { version: 2, policy: 0, ways: 1, sets: 1, lists, facts };
    Break { draft, walk: vec![0, 1, 0, 1, 0, 1], contents: vec![SetState::EMPTY], interruptions: Vec::new() }
}

/// b is alone in its loop, and misses where it is entered. Then a handler leaves nothing of it, and it misses once more.
pub fn interrupted(policy: u8) -> Break {
    let lists = Lists { nodes: vec![B], edges: vec![(0, 0)], loops: vec![LoopRecord::new(0, 0, 3)] };
    let facts = vec![FactRecord { scope: 0, block: B, limit: 1, rows: vec![blocks(&[]).record()] }];
    Break {
        draft: Draft { version: 1, policy, ways: 2, sets: 1, lists, facts },
        walk: vec![0, 0, 0],
        contents: vec![SetState::EMPTY],
        interruptions: vec![Interruption { after: 2, left: vec![SetState::EMPTY] }],
    }
}

/// Two blocks, each with a fact: a handler leaves neither of them, and both miss once more.
fn both_lost() -> Break {
    const OTHER: u16 = 20;
    let fact = |block, rows: [Row; 4]| FactRecord {
        scope: WHOLE_GRAPH,
        block,
        limit: 2,
        rows: rows.iter().map(Row::record).collect(),
    };
    let nodes = vec![B, OTHER, B, OTHER];
    let lists = Lists { edges: steps(nodes.len() as u16).collect(), nodes, loops: Vec::new() };
    let facts = vec![
        fact(B, [Row::NotSince, blocks(&[]), blocks(&[OTHER]), blocks(&[])]),
        fact(OTHER, [Row::NotSince, Row::NotSince, blocks(&[]), blocks(&[B])]),
    ];
    Break {
        draft: Draft { version: 1, policy: 0, ways: 2, sets: 1, lists, facts },
        walk: vec![0, 1, 2, 3],
        contents: vec![SetState::EMPTY],
        interruptions: vec![Interruption { after: 2, left: vec![SetState::EMPTY] }],
    }
}
