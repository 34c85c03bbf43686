//! A walker goes one visit at a time, where edges lead and the limits allow, and counts its misses.

mod limits;
mod longest;
mod misses;

pub use limits::{is_walk, keeps_limits};
pub use longest::longest_walk;
pub use misses::{Measure, Misses, Number};

use crate::case::{Case, Loop};
use crate::generate::states::contents;
use crate::machine::{load, CacheSet, Outcome, SetState, NONE};
use crate::random::Random;

/// How a walk picks its next node, in a hundred: where it misses, else back to a header, else anywhere. And how often, in a
/// hundred, a handler runs where a fetch would hit, and how often in all at the most.
#[derive(Clone, Copy)]
pub struct Bent {
    pub missing: usize,
    pub back: usize,
    pub cut: usize,
    pub most: u16,
}

impl Bent {
    pub fn any(random: &mut Random, most: u16) -> Bent {
        let (missing, back) = (random.pick(&[0, 50, 90]), random.pick(&[0, 50, 90]));
        Bent { missing, back, cut: random.pick(&[0, 8, 25, 60]), most }
    }
}

/// "Between two fetches of the register task a handler may run and leave any legal content in any set."
#[derive(Clone)]
pub struct Interruption {
    /// How many visits come before it.
    pub after: usize,
    /// What it leaves in each set.
    pub left: Vec<SetState>,
}

pub struct Walker<'a> {
    case: &'a Case,
    cache: Vec<Box<dyn CacheSet>>,
    /// For each loop, the visits of its header in the present stay, and in all.
    header_visits: Vec<u128>,
    all_visits: Vec<u128>,
    pub walk: Vec<usize>,
    pub interruptions: Vec<Interruption>,
    /// For each visit, what its fetch was; None where the node fetches nothing.
    pub outcomes: Vec<Option<Outcome>>,
    pub misses: Misses,
}

impl<'a> Walker<'a> {
    /// Before the first visit, with the given content in each set.
    pub fn new(case: &'a Case, contents: &[SetState]) -> Walker<'a> {
        Walker {
            case,
            cache: contents.iter().map(|state| load(case.geometry.shape, state)).collect(),
            header_visits: vec![0; case.graph.loops.len()],
            all_visits: vec![0; case.graph.loops.len()],
            walk: Vec::new(),
            interruptions: Vec::new(),
            outcomes: Vec::new(),
            misses: Misses::none(contents.len(), case.facts.len()),
        }
    }

    /// Whether the last visit, if any, was in the loop.
    fn inside(&self, i: usize) -> bool {
        self.walk.last().is_some_and(|&at| self.case.graph.loops_around(at).contains(&i))
    }

    /// Whether the walk keeps the limits with this visit as well: only a header's visits count.
    fn may_visit(&self, next: usize) -> bool {
        let Some(i) = self.case.graph.loop_of_header(next) else { return true };
        let Loop { bound, visits, .. } = self.case.graph.loops[i];
        let in_the_stay = !self.inside(i) || self.header_visits[i] < bound;
        in_the_stay && visits.is_none_or(|most| self.all_visits[i] < most)
    }

    /// Whether some header has been visited as often as its W allows.
    pub fn uses_up_visits(&self) -> bool {
        self.case.graph.loops.iter().zip(&self.all_visits).any(|(l, &visits)| l.visits == Some(visits))
    }

    /// "the sum of its node costs and penalties"
    pub fn spent(&self, costs: &[u32], penalty: u32) -> u128 {
        let costs: u128 = self.walk.iter().map(|&node| u128::from(costs[node])).sum();
        costs + u128::from(penalty) * self.misses.total
    }

    /// The nodes that the walk may visit next.
    pub fn choices(&self) -> Vec<usize> {
        let Some(&at) = self.walk.last() else { return vec![0] };
        let next = self.case.graph.edges.iter().filter(|&&(u, _)| u == at).map(|&(_, v)| v);
        next.filter(|&v| self.may_visit(v)).collect()
    }

    /// Visits one of the choices: an accepted graph's loops are entered at their headers alone, so a stay begins there.
    pub fn visit(&mut self, node: usize) {
        if let Some(i) = self.case.graph.loop_of_header(node) {
            let before = if self.inside(i) { self.header_visits[i] } else { 0 };
            self.header_visits[i] = before + 1;
            self.all_visits[i] += 1;
        }
        self.walk.push(node);
        let outcome = self.case.graph.blocks[node].map(|block| self.fetch(node, block));
        self.outcomes.push(outcome);
    }

    /// A handler runs. Its own misses are not counted: "only our own misses are counted".
    pub fn interrupt(&mut self, left: &[SetState]) {
        self.cache = left.iter().map(|state| load(self.case.geometry.shape, state)).collect();
        self.interruptions.push(Interruption { after: self.walk.len(), left: left.to_vec() });
    }

    fn fetch(&mut self, node: usize, block: u16) -> Outcome {
        let set = self.case.geometry.set_of(block);
        let outcome = self.cache[set].fetch(block);
        if outcome == Outcome::Miss {
            self.misses.add(self.case, node, block, set);
        }
        outcome
    }

    /// Whether the node's block stands in the cache; None where it fetches nothing.
    fn would_hit(&self, node: usize) -> Option<bool> {
        self.case.graph.blocks[node].map(|block| self.cache[self.case.geometry.set_of(block)].holds(block))
    }

    fn would_miss(&self, node: usize) -> bool {
        self.would_hit(node) == Some(false)
    }

    /// Handlers run before the next visit, seldom where they can do no harm.
    fn run_handlers(&mut self, random: &mut Random, choices: &[usize], bent: Bent) {
        let harmful = choices.iter().any(|&node| self.would_hit(node) == Some(true));
        let cut = if harmful { bent.cut } else { bent.cut / 8 };
        while self.interruptions.len() < bent.most.into() && random.chance(cut) {
            let left = self.left_by_a_handler(random);
            self.interrupt(&left);
        }
    }

    /// Any legal content in each set, or in some of them while the others stay as they were.
    fn left_by_a_handler(&self, random: &mut Random) -> Vec<SetState> {
        let nodes: Vec<u16> = self.case.graph.blocks.iter().map(|block| block.unwrap_or(NONE)).collect();
        let any = contents(random, self.case.geometry, &nodes);
        let touched = random.pick(&[100, 100, 50]);
        let left = any.into_iter().zip(&self.cache);
        left.map(|(state, set)| if random.chance(touched) { state } else { set.state() }).collect()
    }

    /// Goes on until nothing may be visited or the walk is long enough. Handlers run before the first visit too, and after
    /// the last.
    pub fn wander(&mut self, random: &mut Random, longest: usize, bent: Bent) {
        while self.walk.len() < longest {
            let choices = self.choices();
            self.run_handlers(random, &choices, bent);
            let missing = choices.iter().copied().filter(|&node| random.chance(bent.missing) && self.would_miss(node));
            let missing: Vec<usize> = missing.collect();
            let goes_back = |node| self.walk.last() >= Some(&node);
            let back = choices.iter().copied().filter(|&node| random.chance(bent.back) && goes_back(node));
            let back: Vec<usize> = back.collect();
            let Some(from) = [missing, back, choices].into_iter().find(|list| !list.is_empty()) else { return };
            self.visit(random.pick(&from));
        }
    }
}
