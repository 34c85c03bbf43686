//! Faults of edges, loops and counts: rules 6 to 10, and 26.

use super::Spot;
use crate::case::{loops_have_w, Draft, Graph, Lists, LoopRecord, NO_LIMIT};
use crate::generate::graphs::enliven;
use crate::random::Random;

/// The lists keep rules 6 and 7, unless the fault is to be one of these.
pub fn damage(random: &mut Random, draft: &mut Draft, rule: u8, spot: Spot) {
    let with_w = loops_have_w(draft.version);
    let lists = &mut draft.lists;
    match rule {
        6 => spoil_edge(random, lists, spot),
        // "7 also for W = 0"
        7 if with_w && random.chance(25) => spoil_visits(random, lists, spot),
        7 => spoil_loop(random, lists, spot),
        8 => add_edge(random, lists, spot, |graph, u, v| graph.enters_beside_header(u, v)),
        9 => add_edge(random, lists, spot, |graph, u, v| graph.returns_to_no_header(u, v)),
        26 => cut_off(random, lists, spot),
        _ => swell(random, lists, spot, with_w),
    }
}

/// Rule 6: an end that is no node, or an edge that does not come after the one before it.
fn spoil_edge(random: &mut Random, lists: &mut Lists, spot: Spot) {
    let n = lists.nodes.len() as u16;
    if lists.edges.is_empty() {
        lists.edges.push((0, n));
    }
    let i = spot.index(random, lists.edges.len());
    match random.below(4) {
        0 if i > 0 => lists.edges[i] = lists.edges[i - 1],
        1 if i > 0 => lists.edges.swap(i - 1, i),
        2 => lists.edges[i].0 = random.pick(&[n, n + 1, 65_535]),
        _ => lists.edges[i].1 = random.pick(&[n, n + 1, 65_535]),
    }
}

fn spoil_visits(random: &mut Random, lists: &mut Lists, spot: Spot) {
    let i = spot.index(random, lists.loops.len());
    lists.loops.iter_mut().skip(i).take(1).for_each(|record| record.visits = 0);
}

/// Rule 7, one of its five faults beside W.
fn spoil_loop(random: &mut Random, lists: &mut Lists, spot: Spot) {
    let n = lists.nodes.len() as u16;
    if lists.loops.is_empty() {
        lists.loops.push(LoopRecord::new(0, n - 1, 1));
    }
    let i = spot.index(random, lists.loops.len());
    let first = lists.loops[i].first;
    match random.below(5) {
        0 if first > 0 => lists.loops[i].last = random.below(first.into()) as u16,
        1 => lists.loops[i].last = random.pick(&[n, n + 1, 65_535]),
        2 if i > 0 => lists.loops[i].first = random.within(0..=lists.loops[i - 1].first.into()) as u16,
        3 => cross(random, lists, i),
        _ => lists.loops[i].bound = random.pick(&[0, 1_000_001, u32::MAX]),
    }
}

/// Makes loop i, or a new one behind it, end after a loop that it begins in.
fn cross(random: &mut Random, lists: &mut Lists, i: usize) {
    let n = lists.nodes.len() as u16;
    let LoopRecord { first, last, .. } = lists.loops[i];
    let outer = lists.loops[..i].iter().map(|outer| outer.last).filter(|&end| end >= first && end < n - 1).min();
    match outer {
        Some(end) => lists.loops[i].last = random.within((end + 1).into()..=(n - 1).into()) as u16,
        None if first < last && last < n - 1 => {
            let begin = random.within((first + 1).into()..=last.into()) as u16;
            let at = lists.loops.iter().filter(|other| other.first < begin).count();
            lists.loops.insert(at, LoopRecord::new(begin, last + 1, 2));
        }
        None => lists.loops[i].bound = 0,
    }
}

/// Rules 8 and 9: puts an edge that is bad into its place in the order. With no edge before it, it is the first; with
/// none behind it, the last.
fn add_edge(random: &mut Random, lists: &mut Lists, spot: Spot, bad: fn(&Graph, usize, usize) -> bool) {
    let graph = Graph::new(lists);
    let n = lists.nodes.len();
    let pairs = (0..n).flat_map(|u| (0..n).map(move |v| (u, v)));
    let candidates: Vec<_> = pairs.filter(|&(u, v)| bad(&graph, u, v)).collect();
    if candidates.is_empty() {
        return;
    }
    let (u, v) = random.pick(&candidates);
    let edge = (u as u16, v as u16);
    match spot {
        Spot::First => lists.edges.retain(|&other| other > edge),
        Spot::Middle => {}
        Spot::Last => lists.edges.retain(|&other| other < edge),
    }
    lists.edges.push(edge);
    lists.edges.sort();
}

/// Rule 26: nothing leads to the node any more, or nothing but what it leads to itself. What it led to alone is dead with
/// it. Node 0 is never dead, so the first place is node 1.
fn cut_off(random: &mut Random, lists: &mut Lists, spot: Spot) {
    let n = lists.nodes.len();
    let headers: Vec<u16> = lists.loops.iter().map(|record| record.first).filter(|&first| first > 0).collect();
    if n < 2 {
        return;
    }
    let node = match random.below(3) {
        0 if !headers.is_empty() => headers[spot.index(random, headers.len())],
        _ => 1 + spot.index(random, n - 1) as u16,
    };
    match random.below(3) {
        // The loop that it heads goes round by itself.
        0 | 1 => lists.edges.retain(|&(u, v)| v != node || u >= node),
        _ => lists.edges.retain(|&(u, v)| v != node && u != node),
    }
    if random.chance(30) {
        // Dead code that leads on to live code, or to dead.
        let last = random.within(node.into()..=n - 1) as u16;
        lists.edges.retain(|&(u, v)| !(node..=last).contains(&v) || u >= node);
    }
}

/// Rule 10: two loops whose bounds together are too large, the inner one from the chosen node on. A node is in two
/// loops only if it is not the header of the outer one, so the first place is node 1. A W may bring the count back, by as
/// little as it takes or to a few.
fn swell(random: &mut Random, lists: &mut Lists, spot: Spot, with_w: bool) {
    let n = lists.nodes.len();
    if n < 2 || random.chance(20) {
        lists.loops.iter_mut().for_each(|record| record.bound = 1_000_000);
        return;
    }
    let visits = |random: &mut Random| {
        let brought_back = with_w && random.chance(15);
        if brought_back {
            random.pick(&[NO_LIMIT - 1, NO_LIMIT - 1, 7])
        } else {
            NO_LIMIT
        }
    };
    let first = 1 + spot.index(random, n - 1);
    let last = random.within(first..=n - 1);
    // 65,535 times 65,537 is the largest count, 4,294,967,295.
    let (outer, inner) = random.pick(&[(65_536, 65_536), (4_295, 1_000_000), (1_000_000, 1_000_000), (65_535, 65_537)]);
    lists.loops = vec![
        LoopRecord { visits: visits(random), ..LoopRecord::new(0, n as u16 - 1, outer) },
        LoopRecord { visits: visits(random), ..LoopRecord::new(first as u16, last as u16, inner) },
    ];
    let graph = Graph::new(lists);
    let ends = |edge: (u16, u16)| (usize::from(edge.0), usize::from(edge.1));
    lists.edges.retain(|&edge| {
        let (u, v) = ends(edge);
        !graph.enters_beside_header(u, v) && !graph.returns_to_no_header(u, v)
    });
    enliven(lists);
}
