//! Loops within loops, with B, and in version 2 with W.

use super::cases::Plan;
use crate::case::{loops_have_w, Graph, Lists, LoopRecord, LARGEST, LARGEST_BOUND, NO_LIMIT};
use crate::random::Random;

pub fn loops(random: &mut Random, plan: &Plan) -> Vec<LoopRecord> {
    let mut loops = Vec::new();
    nest(random, plan, (0, plan.nodes - 1), (plan.depth, 1), &mut loops);
    loops.truncate(LARGEST[2].into());
    loops
}

/// Loops within the range, outer ones first: an inner loop begins after its outer loop's header, so headers differ. Handed
/// are how deep to nest, and the header visits of the next loop out.
fn nest(
    random: &mut Random,
    plan: &Plan,
    (first, last): (usize, usize),
    (depth, outer): (usize, u64),
    loops: &mut Vec<LoopRecord>,
) {
    let mut node = first;
    while node <= last && depth > 0 {
        if random.chance(45) {
            // The larger of two draws: what is nested deep needs room.
            let end = node + random.below(last - node + 1).max(random.below(last - node + 1));
            let bound = bound(random, plan);
            let visits = visits(random, plan.version, bound, outer);
            loops.push(LoopRecord { first: node as u16, last: end as u16, bound, visits });
            nest(random, plan, (node + 1, end), (depth - 1, header_visits(bound, visits, outer)), loops);
            node = end;
        }
        node += 1;
    }
}

fn bound(random: &mut Random, plan: &Plan) -> u32 {
    if plan.large_bounds && random.chance(8) {
        let any = random.within(1..=LARGEST_BOUND as usize) as u32;
        return random.pick(&[LARGEST_BOUND, any]);
    }
    random.within(1..=plan.bound) as u32
}

/// W: none, or one below, at or above B times the outer visits, and some so small that they limit the entries.
pub fn visits(random: &mut Random, version: u8, bound: u32, outer: u64) -> u32 {
    if !loops_have_w(version) || random.chance(25) {
        return NO_LIMIT;
    }
    let all = outer * u64::from(bound);
    let (few, any) = (random.within(1..=3) as u64, random.within(1..=all as usize) as u64);
    let chosen = random.pick(&[few, few, any, any, outer, outer - 1, all - 1, all, all + 1, 2 * all, u64::MAX]);
    chosen.clamp(1, u64::from(NO_LIMIT) - 1) as u32
}

/// The header visits of a loop, held below 2^32 where they are more.
pub fn header_visits(bound: u32, visits: u32, outer: u64) -> u64 {
    (outer * u64::from(bound)).min(visits.into())
}

/// Takes bounds back to 1, inner ones first, until no count is too large. Or W brings the count back, to the largest that a
/// limit can be or a little less.
pub fn temper(random: &mut Random, version: u8, lists: &mut Lists) {
    for i in (0..lists.loops.len()).rev() {
        let graph = Graph::new(lists);
        if (0..lists.nodes.len()).all(|node| graph.count(node).is_some()) {
            break;
        }
        if loops_have_w(version) && random.chance(70) {
            lists.loops[i].visits = NO_LIMIT - random.within(1..=3) as u32;
        } else {
            lists.loops[i].bound = 1;
        }
    }
}
