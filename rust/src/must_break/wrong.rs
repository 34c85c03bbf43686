//! The wrong rules. Each differs from the paper in one formula.

use super::Wrong;
use crate::case::{Graph, Paper, Rules, Scope, Stakes};
use crate::machine::Policy;
use std::collections::BTreeSet;

pub const ALL: [Wrong; 14] = [
    Wrong { name: "LRU's fact bound E used for FIFO", rules: &LruForFifo },
    Wrong { name: "(l-1) times E for NMRU with l >= 3", rules: &FactorTooSmall },
    Wrong { name: "E for NMRU with l >= 3", rules: &FactorForgotten },
    Wrong { name: "g+1 for g", rules: &GroupTooLarge },
    Wrong { name: "entries without the outermost loop", rules: &OutermostForgotten },
    Wrong { name: "k-l+2 in the set's floor", rules: &DivisorTooLarge },
    Wrong { name: "the edge rule without u's own block", rules: &OwnBlockForgotten },
    Wrong { name: "W used as B, for each stay: the lesser of W and B as header visits", rules: &WholeForStay },
    Wrong { name: "the outer loop's W for the loops inside it", rules: &OuterForInner },
    Wrong { name: "W/B entries", rules: &FullStays },
    Wrong { name: "E for the tree with l = 2 + log2 k", rules: &TreeLimitTooLarge },
    Wrong { name: "the lesser of E and N, without p", rules: &InterruptionsForgotten },
    Wrong { name: "the lesser of E and N, without p, in M(l)", rules: &InterruptionsForgottenInM },
    Wrong { name: "p once a set, and not once a fact", rules: &InterruptionsOnceASet },
];

struct LruForFifo;

impl Rules for LruForFifo {
    fn fact_bound(&self, stakes: Stakes) -> u128 {
        Paper.fact_bound(Stakes {
            policy: if stakes.policy == Policy::Fifo { Policy::Lru } else { stakes.policy },
            ..stakes
        })
    }
}

struct FactorTooSmall;

impl Rules for FactorTooSmall {
    fn fact_bound(&self, stakes: Stakes) -> u128 {
        match stakes.policy {
            Policy::Nmru if stakes.limit >= 3 => stakes.fetches.min((stakes.limit - 1) * stakes.entries),
            _ => Paper.fact_bound(stakes),
        }
    }
}

struct FactorForgotten;

impl Rules for FactorForgotten {
    fn fact_bound(&self, stakes: Stakes) -> u128 {
        match stakes.policy {
            Policy::Nmru if stakes.limit >= 3 => stakes.entries,
            _ => Paper.fact_bound(stakes),
        }
    }
}

struct GroupTooLarge;

impl Rules for GroupTooLarge {
    fn group(&self, ways: u128, limit: u128) -> u128 {
        Paper.group(ways, limit) + 1
    }
}

struct OutermostForgotten;

impl Rules for OutermostForgotten {
    fn entries(&self, graph: &Graph, scope: Scope) -> u128 {
        graph.strictly_around(scope).iter().skip(1).map(|&i| graph.loops[i].bound).product()
    }
}

struct DivisorTooLarge;

impl Rules for DivisorTooLarge {
    fn floor(&self, ways: u128, limit: u128, lru_misses: u128) -> u128 {
        ways * lru_misses / (ways - limit + 2)
    }
}

struct OwnBlockForgotten;

impl Rules for OwnBlockForgotten {
    fn passed_on(&self, held: &BTreeSet<u16>, _own: Option<u16>) -> BTreeSet<u16> {
        held.clone()
    }
}

struct WholeForStay;

impl Rules for WholeForStay {
    fn count(&self, graph: &Graph, node: usize) -> u128 {
        let innermost = graph.loops_around(node).last().map(|&i| graph.loops[i]);
        innermost.map_or(1, |l| l.visits.map_or(Paper.count(graph, node), |most| most.min(l.bound)))
    }
}

struct OuterForInner;

impl Rules for OuterForInner {
    fn count(&self, graph: &Graph, node: usize) -> u128 {
        let limits = graph.loops_around(node).iter().filter_map(|&i| graph.loops[i].visits);
        limits.fold(Paper.count(graph, node), u128::min)
    }
}

struct FullStays;

impl Rules for FullStays {
    fn entries(&self, graph: &Graph, scope: Scope) -> u128 {
        let right = Paper.entries(graph, scope);
        match scope {
            Scope::Loop(i) => graph.loops[i].visits.map_or(right, |most| right.min(most / graph.loops[i].bound)),
            Scope::Whole => right,
        }
    }
}

struct TreeLimitTooLarge;

impl Rules for TreeLimitTooLarge {
    fn tree_limit(&self, ways: u128) -> u128 {
        Paper.tree_limit(ways) + 1
    }
}

struct InterruptionsForgotten;

impl Rules for InterruptionsForgotten {
    fn entered(&self, entries: u128, _interruptions: u128, fetches: u128) -> u128 {
        Paper.entered(entries, 0, fetches)
    }
}

struct InterruptionsForgottenInM;

impl Rules for InterruptionsForgottenInM {
    fn entered_in_m(&self, entries: u128, _interruptions: u128, fetches: u128) -> u128 {
        Paper.entered_in_m(entries, 0, fetches)
    }
}

struct InterruptionsOnceASet;

impl Rules for InterruptionsOnceASet {
    fn interruptions(&self, most: u128, before_in_set: usize) -> u128 {
        if before_in_set == 0 {
            most
        } else {
            0
        }
    }
}
