//! Sound case files, by a plan.

use super::{facts, graphs, palette, sets};
use crate::case::{Draft, Graph, Rules, VERSIONS};
use crate::machine::{Geometry, Shape};
use crate::random::Random;

/// How large a file is to be.
#[derive(Clone, Debug)]
pub struct Plan {
    pub version: u8,
    pub nodes: usize,
    /// How deep loops may be nested.
    pub depth: usize,
    /// Loop bounds are 1 to this, but for a few large ones where allowed.
    pub bound: usize,
    pub large_bounds: bool,
    /// How many different blocks the nodes fetch, at most.
    pub blocks: usize,
    /// How many nodes in a hundred fetch the same block: facts about it have much to lose.
    pub favourite: usize,
    /// How many edges in a hundred leave out nodes; with none, walks go through every node.
    pub skips: usize,
    /// No fact is added once there are this many rows.
    pub rows: usize,
    /// Policy, ways and sets; where not given, any.
    pub machine: Option<(u8, u8, u8)>,
}

impl Plan {
    /// Files as the comparison of verdicts wants them: from one node to some dozens.
    pub fn any(random: &mut Random) -> Plan {
        let most = random.pick(&[4, 12, 24, 40]);
        Plan {
            version: random.pick(&VERSIONS),
            nodes: random.within(1..=most),
            depth: random.within(0..=6),
            bound: random.pick(&[2, 4, 10]),
            large_bounds: true,
            blocks: random.within(1..=14),
            favourite: 0,
            skips: random.pick(&[2, 10, 25]),
            rows: random.pick(&[20, 60, 120]),
            machine: None,
        }
    }

    /// Files with room for a fault at a first, a middle and a last place.
    pub fn roomy(random: &mut Random) -> Plan {
        Plan {
            nodes: random.within(8..=24),
            depth: random.within(2..=6),
            blocks: random.within(4..=10),
            rows: 90,
            ..Plan::any(random)
        }
    }

    /// Files up to the largest number of nodes and loops.
    pub fn large(random: &mut Random) -> Plan {
        Plan { nodes: random.within(100..=1_024), depth: 64, bound: 1, rows: 3_000, ..Plan::any(random) }
    }

    /// Small files where large limits are found as well: some have eight ways, one set and hardly a block twice.
    pub fn searched(random: &mut Random) -> Plan {
        let plan = Plan { nodes: random.within(1..=12), depth: random.within(0..=6), rows: 30, ..Plan::small(random) };
        if random.chance(60) {
            return plan;
        }
        let policy = random.below(4) as u8;
        Plan { blocks: 40, favourite: 0, skips: random.pick(&[0, 5]), machine: Some((policy, 8, 1)), ..plan }
    }

    /// Small files that a walk can go through many times.
    pub fn small(random: &mut Random) -> Plan {
        let (policy, ways) = random.pick(&Shape::all_numbers());
        let ways = if random.chance(70) { ways.min(4) } else { ways };
        Plan {
            version: random.pick(&VERSIONS),
            nodes: random.within(1..=16),
            depth: random.within(0..=4),
            bound: random.pick(&[2, 3, 6]),
            large_bounds: false,
            blocks: random.within(1..=8),
            favourite: random.pick(&[0, 30, 50]),
            skips: random.pick(&[0, 0, 5, 25]),
            rows: 200,
            machine: Some((policy, ways, random.pick(&[1, 1, 1, 2, 3]))),
        }
    }
}

/// A case file that passes every rule.
pub fn sound(random: &mut Random, plan: &Plan, rules: &dyn Rules) -> Draft {
    let (policy, ways, sets) = plan.machine.unwrap_or_else(|| {
        let (policy, ways) = random.pick(&Shape::all_numbers());
        (policy, ways, sets(random))
    });
    let geometry = Geometry::read(policy, ways, sets).expect("the plan's machine is in range");
    let blocks = palette(random, plan.blocks, geometry.sets);
    let lists = graphs::lists(random, plan, &blocks);
    let facts = facts::facts(random, geometry, &Graph::new(&lists), rules, plan.rows);
    Draft { version: plan.version, policy, ways, sets, lists, facts }
}
