//! Item 13 of the requests, "Cycles for the slot table": the longest way, loops as steps, the penalty, what is refused, and the frame.

use second::case::{judge, time, Draft, FactRecord, Lists, LoopRecord, Paper, Scope, Ways, NO_LIMIT};
use second::generate::cases::{sound, Plan};
use second::generate::costs::{brink, costs};
use second::machine::{SetState, NONE};
use second::pipe::Request;
use second::random::Random;
use second::refusal::Refusal;
use second::walk::{longest_walk, Walker};
use std::fs;
use std::path::Path;

fn example(name: &str) -> Vec<u8> {
    fs::read(Path::new(env!("CARGO_MANIFEST_DIR")).join("../examples").join(name)).unwrap()
}

/// Nodes that fetch nothing.
fn free(nodes: usize, edges: &[(u16, u16)], loops: &[(u16, u16, u32)]) -> Draft {
    let loops = loops.iter().map(|&(first, last, bound)| LoopRecord::new(first, last, bound)).collect();
    let lists = Lists { nodes: vec![NONE; nodes], edges: edges.to_vec(), loops };
    Draft { version: 1, policy: 0, ways: 1, sets: 1, lists, facts: Vec::new() }
}

fn taken(draft: &Draft, costs: &[u32]) -> u64 {
    time(&draft.write(), costs, 0, 0, &Paper).unwrap()
}

/// The loop of nodes 1 and 2 takes 10 times 5 + 7; FIFO's total is 4, with one interruption 8, with two 12.
#[test]
fn the_papers_file() {
    let said = |penalty, interruptions| time(&example("paper.case"), &[3, 5, 7, 2], penalty, interruptions, &Paper);
    assert_eq!(said(0, 0), Ok(125));
    assert_eq!(said(100, 0), Ok(525));
    assert_eq!(said(100, 1), Ok(925));
    assert_eq!(said(100, 2), Ok(1_325));
    assert_eq!(said(u32::MAX, 0), Ok(125 + 4 * 4_294_967_295));
}

/// "the longest way from the header along forward edges": also one that ends early, where that costs as much.
#[test]
fn branches() {
    let edges = [(0, 1), (0, 2), (1, 3), (2, 3)];
    assert_eq!(taken(&free(4, &edges, &[]), &[1, 100, 2, 1]), 102);
    assert_eq!(taken(&free(4, &edges, &[]), &[1, 2, 100, 1]), 102);
    assert_eq!(taken(&free(4, &edges, &[]), &[0; 4]), 0);
    // The longer way in steps is not the longer one in time.
    assert_eq!(taken(&free(4, &[(0, 1), (0, 3), (1, 2), (2, 3)], &[]), &[1, 1, 1, 9]), 12);
    assert_eq!(taken(&free(3, &[(0, 1), (0, 2)], &[]), &[1, 7, 9]), 10);
}

/// "each inner loop taken as one step of its own time, times B": whatever round it is left in.
#[test]
fn loops_are_steps() {
    // 1 to 2 is a loop that is left from its header: the step is taken whole.
    let edges = [(0, 1), (1, 2), (1, 3), (2, 1)];
    assert_eq!(taken(&free(4, &edges, &[(1, 2, 4)]), &[1, 10, 20, 100]), 1 + 4 * 30 + 100);
    // A loop within a loop: 2 to 3 in 1 to 4.
    let edges = [(0, 1), (1, 2), (2, 3), (3, 2), (3, 4), (4, 1), (4, 5)];
    let draft = free(6, &edges, &[(1, 4, 3), (2, 3, 5)]);
    assert_eq!(taken(&draft, &[1, 2, 3, 4, 5, 6]), 1 + 3 * (2 + 5 * (3 + 4) + 5) + 6);
    // An edge that leaves both loops at once is none of the outer loop's ways, but one of the graph's.
    let edges = [(0, 1), (1, 2), (2, 1), (2, 2), (2, 3)];
    let draft = free(4, &edges, &[(1, 2, 3), (2, 2, 5)]);
    assert_eq!(taken(&draft, &[1, 2, 3, 100]), 1 + 3 * (2 + 5 * 3) + 100);
}

/// "The graph's time is the longest way from node 0": node 0 may itself head a loop, which is then the first step, or all.
#[test]
fn node_0_heads_a_loop() {
    assert_eq!(taken(&free(1, &[], &[]), &[7]), 7);
    assert_eq!(taken(&free(1, &[(0, 0)], &[(0, 0, 6)]), &[7]), 42);
    // No edge leads back: B rounds all the same.
    assert_eq!(taken(&free(2, &[(0, 1)], &[(0, 1, 6)]), &[7, 1]), 48);
    assert_eq!(taken(&free(3, &[(0, 1), (1, 0), (1, 2)], &[(0, 1, 6)]), &[7, 1, 5]), 53);
}

/// "W is not used here."
#[test]
fn no_w() {
    let mut draft = free(2, &[(0, 1), (1, 1)], &[(1, 1, 10)]);
    draft.version = 2;
    for visits in [1, 3, 10, 11, NO_LIMIT] {
        draft.lists.loops[0].visits = visits;
        assert_eq!(taken(&draft, &[1, 5]), 51);
    }
    // But the total miss bound has it.
    draft.lists.nodes[1] = 4;
    draft.lists.loops[0].visits = 3;
    assert_eq!(time(&draft.write(), &[1, 5], 100, 0, &Paper), Ok(351));
}

/// "20 for a cost list of the wrong length": too short or too long, behind every refusal of the check, which has no 20 here.
#[test]
fn the_costs_are_one_a_node() {
    let refused = |file: &[u8], costs: &[u32]| time(file, costs, 1, 0, &Paper).unwrap_err();
    for length in [0, 1, 3, 5, 8] {
        assert_eq!(refused(&example("paper.case"), &vec![1; length]), Refusal::new(20, 0));
    }
    assert_eq!(refused(&[], &[]), Refusal::new(1, 0));
    assert_eq!(refused(&example("broken.case"), &[]), Refusal::new(24, 3).at(4));
    assert_eq!(refused(&example("dead.case"), &[]), Refusal::new(26, 3));
}

/// "27 if the time exceeds 9,223,372,036,854,775,807", behind 20; the largest is told.
#[test]
fn the_largest_time() {
    let mut random = Random::for_part(3, "brink");
    for more in [-2, -1, 0, 1, 2, 1_000] {
        for _ in 0..50 {
            let (draft, costs, penalty) = brink(&mut random, more);
            let (file, due) = (draft.write(), i64::MAX.checked_add(more));
            let told = due.map(|due| due as u64).ok_or(Refusal::new(27, 0));
            assert_eq!(time(&file, &costs, penalty, 5, &Paper), told);
            assert_eq!(time(&file, &costs[1..], penalty, 5, &Paper), Err(Refusal::new(20, 0)));
        }
    }
}

/// Past 128 bits, where W brings every count back: nothing wraps.
#[test]
fn far_too_large() {
    let last = 63;
    let edges: Vec<(u16, u16)> = (0..last).map(|node| (node, node + 1)).collect();
    let mut draft = free(64, &edges, &[]);
    let record = LoopRecord { visits: 7, ..LoopRecord::new(0, last, 1_000_000) };
    draft.version = 2;
    draft.lists.loops = (0..=last).map(|first| LoopRecord { first, ..record }).collect();
    assert_eq!(time(&draft.write(), &[1; 64], 0, 0, &Paper), Err(Refusal::new(27, 0)));
    assert_eq!(time(&draft.write(), &[0; 64], 9, 0, &Paper), Ok(0));
}

/// A fact lowers the misses, and with them the time.
#[test]
fn the_penalty_is_for_bounded_misses() {
    let mut draft = free(1, &[(0, 0)], &[(0, 0, 10)]);
    draft.lists.nodes[0] = 4;
    assert_eq!(time(&draft.write(), &[1], 50, 0, &Paper), Ok(510));
    let nothing = [0, NONE, NONE, NONE, NONE, NONE, NONE, NONE];
    draft.facts = vec![FactRecord { scope: 0, block: 4, limit: 1, rows: vec![nothing] }];
    assert_eq!(time(&draft.write(), &[1], 50, 0, &Paper), Ok(60));
    assert_eq!(time(&draft.write(), &[1], 50, 3, &Paper), Ok(210));
    assert_eq!(time(&draft.write(), &[1], 50, 65_535, &Paper), Ok(510));
}

/// Where the longest way is a walk, its costs are the longest way's time; and some are.
#[test]
fn the_longest_way_is_walked() {
    let mut random = Random::for_part(5, "longest");
    let mut walked = 0;
    for _ in 0..300 {
        let plan = Plan::small(&mut random);
        let draft = sound(&mut random, &plan, &Paper);
        let case = judge(&draft.write(), &Paper).unwrap();
        let costs = costs(&mut random, draft.lists.nodes.len());
        let ways = Ways { graph: &case.graph, costs: &costs, rules: &Paper };
        let Some(visits) = longest_walk(&ways, 5_000) else { continue };
        let mut walker = Walker::new(&case, &vec![SetState::EMPTY; case.geometry.sets.into()]);
        visits.iter().for_each(|&node| walker.visit(node));
        assert_eq!(walker.spent(&costs, 0), ways.longest(Scope::Whole));
        walked += 1;
    }
    assert!(walked > 30, "{walked}");
}

/// docs/PIPE.md: p, the penalty, how many bytes and costs, the file, the costs.
#[test]
fn the_frame() {
    let request = Request::Time { interruptions: 258, penalty: 70_000, file: vec![81, 77], costs: vec![3, 65_536] };
    let frame = [10, 2, 1, 112, 17, 1, 0, 2, 0, 0, 0, 2, 0, 0, 0, 81, 77, 3, 0, 0, 0, 0, 0, 1, 0];
    assert_eq!(request.encode(), frame);
}
