//! Case files at the limits, each of which a wrong comparison sign would judge otherwise.

use crate::case::{Draft, FactRecord, Lists, LoopRecord, Row, RowRecord, NO_LIMIT, WHOLE_GRAPH};
use crate::generate::graphs::steps;
use std::collections::BTreeSet;
use std::ops::Range;

/// Nodes that fetch 0, 1, 2, ... in turn, each with an edge to the next.
fn nodes(n: usize) -> Draft {
    let lists = Lists { nodes: (0..n as u16).collect(), edges: steps(n as u16).collect(), loops: Vec::new() };
    Draft { version: 1, policy: 1, ways: 8, sets: 64, lists, facts: Vec::new() }
}

fn nested(bounds: &[u32]) -> Draft {
    let mut draft = nodes(bounds.len());
    let last = bounds.len() as u16 - 1;
    draft.lists.loops = bounds.iter().zip(0..).map(|(&bound, first)| LoopRecord::new(first, last, bound)).collect();
    draft
}

/// The same in version 2: B and W of each loop.
fn limited(loops: &[(u32, u32)]) -> Draft {
    let bounds: Vec<u32> = loops.iter().map(|&(bound, _)| bound).collect();
    let mut draft = Draft { version: 2, ..nested(&bounds) };
    draft.lists.loops.iter_mut().zip(loops).for_each(|(record, &(_, visits))| record.visits = visits);
    draft
}

/// As many loops as asked for, of one node each.
fn with_loops(mut draft: Draft, loops: u16) -> Draft {
    draft.lists.loops = (0..loops).map(|node| LoopRecord::new(node, node, 3)).collect();
    draft
}

/// As many edges as asked for, forward ones, from each node to the next, and from the first ones further ahead.
fn with_edges(mut draft: Draft, edges: usize) -> Draft {
    let n = draft.lists.nodes.len() as u16;
    let ahead = (0..n).flat_map(|u| (u + 2..n.min(u + 9)).map(move |v| (u, v)));
    draft.lists.edges = steps(n).chain(ahead).take(edges).collect();
    draft.lists.edges.sort();
    draft
}

/// Facts about as many blocks as asked for, over the whole graph, where block i is fetched once, at node i.
fn with_facts(mut draft: Draft, facts: usize) -> Draft {
    let n = draft.lists.nodes.len() as u16;
    let fact = |block| FactRecord { scope: WHOLE_GRAPH, block, limit: 1 + block % 8, rows: fetched_once(0..n, block) };
    draft.facts = (0..facts as u16).map(fact).collect();
    draft
}

/// Rows for a block that is fetched once, at the node of its number: 9 up to there and 8 behind.
pub fn fetched_once(nodes: Range<u16>, block: u16) -> Vec<RowRecord> {
    nodes.map(|node| if node > block { Row::Many } else { Row::NotSince }.record()).collect()
}

/// The row where nothing has gathered.
fn nothing() -> RowRecord {
    Row::Blocks(BTreeSet::new()).record()
}

/// A loop of a block and no other, where nothing gathers and l = 1 suffices.
fn alone(policy: u8, bound: u32) -> Draft {
    Draft {
        version: 1,
        policy,
        ways: 2,
        sets: 1,
        lists: Lists { nodes: vec![7], edges: vec![(0, 0)], loops: vec![LoopRecord::new(0, 0, bound)] },
        facts: vec![FactRecord { scope: 0, block: 7, limit: 1, rows: vec![nothing()] }],
    }
}

/// As many nodes as there may be, all but the first with the largest count: the largest sums.
fn heavy(policy: u8) -> Draft {
    let mut draft = Draft { policy, sets: 1, ..nodes(1_024) };
    let outer = LoopRecord::new(0, 1_023, 65_535);
    draft.lists.loops = vec![outer, LoopRecord { first: 1, bound: 65_537, ..outer }];
    draft
}

/// A loop that is entered as often as a loop can be, all of whose nodes fetch the same block: the largest fact bounds.
fn heavy_fact(policy: u8, limit: u16) -> Draft {
    let mut draft = heavy(policy);
    draft.lists.nodes = vec![5; 1_024];
    draft.lists.loops.push(LoopRecord::new(2, 1_023, 1));
    draft.facts = vec![FactRecord { scope: 2, block: 5, limit, rows: vec![nothing(); 1_022] }];
    draft
}

/// A fact about a loop that is entered a thousand times, and a block that is fetched where W lets a walk come but rarely:
/// N is below E.
pub fn seldom(policy: u8, limit: u16) -> Draft {
    let loops = vec![
        LoopRecord::new(0, 3, 1_000),
        LoopRecord::new(1, 3, 2),
        LoopRecord { visits: 3, ..LoopRecord::new(2, 3, 5) },
    ];
    let lists =
        Lists { nodes: vec![1, 2, 7, 7], edges: vec![(0, 1), (1, 0), (1, 1), (1, 2), (2, 3), (3, 0), (3, 2)], loops };
    let rows = vec![Row::NotSince.record(), nothing(), nothing()];
    let facts = vec![FactRecord { scope: 1, block: 7, limit, rows }];
    Draft { version: 2, policy, ways: 8, sets: 2, lists, facts }
}

/// B and W of nested loops: at the largest count, at W of no limit, and where B times the outer visits is too large.
fn limits() -> Vec<Draft> {
    let none = NO_LIMIT;
    let nests: [&[(u32, u32)]; 16] = [
        &[(2, 0)],
        &[(2, 1)],
        &[(2, 2)],
        &[(2, 3)],
        &[(1_000_000, none - 1)],
        &[(1, 1), (1_000_000, none), (1_000_000, none - 1)],
        &[(65_535, none), (65_537, none)],
        &[(65_535, none), (65_537, none - 1)],
        &[(65_536, none), (65_536, none)],
        &[(65_536, none), (65_536, none - 1)],
        &[(65_536, none), (65_536, none - 1), (2, none)],
        &[(65_536, none), (65_536, none - 1), (1, none)],
        // The node in all three is counted 7 times, but the one before it too often.
        &[(1_000_000, none), (1_000_000, none), (1_000_000, 7)],
        &[(1_000_000, none), (1_000_000, 7), (1_000_000, none)],
        &[(1_000_000, none - 1); 64],
        &[(1, none); 65],
    ];
    nests.into_iter().map(limited).collect()
}

pub fn drafts() -> Vec<Draft> {
    let mut drafts = vec![
        nodes(1),
        nodes(0),
        nodes(1_024),
        nodes(1_025),
        with_edges(nodes(1_024), 4_096),
        with_edges(nodes(1_024), 4_097),
        nested(&[2, 1_000_000]),
        nested(&[2, 1_000_001]),
        nested(&[1, 0]),
        // 65,535 times 65,537 is 4,294,967,295, the largest count.
        nested(&[65_535, 65_537]),
        nested(&[65_536, 65_536]),
        nested(&[1_000_000, 1_000_000]),
        nested(&[1_000_000; 64]),
        nested(&[1; 64]),
        nested(&[1; 65]),
        with_facts(nodes(300), 256),
        with_facts(nodes(300), 257),
        // The largest file that can be accepted.
        with_facts(with_loops(with_edges(nodes(1_024), 4_096), 64), 256),
    ];
    // With 65,535 interruptions E + p is 65,536.
    let bounds = [1, 2, 3, 10, 65_535, 65_536, 65_537, 1_000_000];
    drafts.extend((0..4).flat_map(|policy| bounds.map(|bound| alone(policy, bound))));
    drafts.extend((0..4).flat_map(|policy| [heavy(policy), heavy_fact(policy, 2), heavy_fact(policy, 8)]));
    drafts.extend(limits());
    drafts.extend((0..4).flat_map(|policy| [1, 2, 3, 8].map(|limit| seldom(policy, limit))));
    // The largest that can be accepted in version 2.
    let mut largest = Draft { version: 2, ..with_facts(with_loops(with_edges(nodes(1_024), 4_096), 64), 256) };
    largest.lists.loops.iter_mut().for_each(|record| record.visits = 2);
    drafts.push(largest);
    drafts
}
