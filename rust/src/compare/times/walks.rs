//! "For every walk of demand 3, the sum of its node costs and penalties is no larger": walks through small files, held against the
//! times that `time` gave. And where the longest way is a walk, and no fact lowers the misses, the time is reached.

use super::Settings;
use crate::case::{judge, Case, Draft, Paper, Ways};
use crate::compare::walks::{most, small_file};
use crate::generate::costs::{costs, penalty};
use crate::generate::states::contents;
use crate::machine::SetState;
use crate::pipe::{Answer, Body, Pipe, Request};
use crate::random::Random;
use crate::show;
use crate::walk::{is_walk, keeps_limits, longest_walk, Bent, Walker};

/// How many files go into one conversation.
const TOGETHER: usize = 500;
/// How often each file is walked through, and how far at the most.
const WALKS: usize = 8;
const LONGEST: usize = 300;
/// How many visits the longest way may have.
const MOST_VISITS: usize = 3_000;
/// How often each kind must be seen.
const AT_LEAST: u64 = 50;

/// A file, and what its time is asked for with.
struct Slot {
    draft: Draft,
    costs: Vec<u32>,
    penalty: u32,
    interruptions: u16,
}

#[derive(Default)]
struct Seen {
    walks: u64,
    interrupted: u64,
    /// Random walks that take all their time.
    reached: u64,
    /// Longest ways that are walks; those of them that take the whole time with no penalty, and with penalties.
    longest: u64,
    by_costs: u64,
    with_misses: u64,
}

pub fn run(pipe: &Pipe, settings: &Settings, random: &mut Random) -> Result<(), String> {
    let mut seen = Seen::default();
    let mut left = settings.timed / 2;
    while left > 0 {
        let slots: Vec<Slot> = (0..left.min(TOGETHER)).map(|_| Slot::any(random)).collect();
        let requests: Vec<Request> = slots.iter().map(Slot::request).collect();
        // The times are taken as they come: here they are held against walks alone.
        for (slot, answer) in slots.iter().zip(pipe.ask(&requests)?) {
            slot.hold(random, &answer, &mut seen)?;
        }
        left -= slots.len();
    }
    seen.report();
    seen.demand()
}

impl Slot {
    /// Half of the files keep no facts: there every fetch may miss.
    fn any(random: &mut Random) -> Slot {
        let mut draft = small_file(random);
        if random.chance(50) {
            draft.facts.clear();
        }
        let costs = costs(random, draft.lists.nodes.len());
        let (any, most) = (penalty(random), most(random));
        Slot { draft, costs, penalty: random.pick(&[0, any]), interruptions: random.pick(&[most, 65_535]) }
    }

    fn request(&self) -> Request {
        let Slot { draft, costs, penalty, interruptions } = self;
        let (interruptions, penalty) = (*interruptions, *penalty);
        Request::Time { interruptions, penalty, file: draft.write(), costs: costs.clone() }
    }

    fn hold(&self, random: &mut Random, answer: &Answer, seen: &mut Seen) -> Result<(), String> {
        let case = judge(&self.draft.write(), &Paper).ok().filter(|_| answer.refusal.is_none());
        let case = case.ok_or_else(|| format!("a sound file is refused\n{}", show::request(&self.request())))?;
        let Body::Time(time) = answer.body else { return Err("no answer to a time".to_string()) };
        for _ in 0..WALKS {
            let contents = contents(random, case.geometry, &self.draft.lists.nodes);
            let mut walker = Walker::new(&case, &contents);
            let bent = Bent::any(random, self.interruptions);
            walker.wander(random, LONGEST, bent);
            let spent = self.spent(&contents, &walker, &case, time)?;
            seen.walks += 1;
            seen.interrupted += u64::from(!walker.interruptions.is_empty());
            seen.reached += u64::from(spent > 0 && spent == time.into());
        }
        self.hold_longest(&case, time, seen)
    }

    /// What the walk takes, which must not be more than the time.
    fn spent(&self, contents: &[SetState], walker: &Walker, case: &Case, time: u64) -> Result<u128, String> {
        let spent = walker.spent(&self.costs, self.penalty);
        let limits = is_walk(&case.graph, &walker.walk) && keeps_limits(&case.graph, &walker.walk);
        if limits && spent <= time.into() {
            return Ok(spent);
        }
        let story = show::story(&self.draft, contents, walker);
        let costs = show::costs(&self.costs, self.penalty);
        Err(format!("spent {spent}; time {time}; within the limits: {limits}\n{costs}\n{story}"))
    }

    /// Goes along the longest way, where that is a walk, and as often as may be a handler leaves nothing in the cache. What is then
    /// missing to the time is the penalty of fetches that are bounded but did not miss.
    fn hold_longest(&self, case: &Case, time: u64, seen: &mut Seen) -> Result<(), String> {
        let ways = Ways { graph: &case.graph, costs: &self.costs, rules: &Paper };
        let Some(visits) = longest_walk(&ways, MOST_VISITS) else { return Ok(()) };
        let empty = vec![SetState::EMPTY; case.geometry.sets.into()];
        let mut walker = Walker::new(case, &empty);
        for &node in &visits {
            if walker.interruptions.len() < self.interruptions.into() {
                walker.interrupt(&empty);
            }
            walker.visit(node);
        }
        let spent = self.spent(&empty, &walker, case, time)?;
        let spared = case.bounds(self.interruptions, &Paper).total - walker.misses.total;
        if u128::from(time) - spent != spared * u128::from(self.penalty) {
            let story = show::story(&self.draft, &empty, &walker);
            return Err(format!(
                "the longest way takes {spent}, {spared} misses fewer than bounded; time {time}\n{story}"
            ));
        }
        seen.longest += 1;
        seen.by_costs += u64::from(self.penalty == 0 && spent > 0);
        seen.with_misses += u64::from(self.penalty > 0 && spared == 0 && walker.misses.total > 0);
        Ok(())
    }
}

impl Seen {
    fn report(&self) {
        let Seen { walks, interrupted, reached, longest, by_costs, with_misses } = self;
        println!(
            "walks beside times: {walks}, {interrupted} of them interrupted; none takes longer, {reached} take as long"
        );
        println!("  longest ways that are walks: {longest}; they take the whole time with penalty 0: {by_costs}, with misses: {with_misses}");
    }

    fn demand(&self) -> Result<(), String> {
        let kinds = [self.interrupted, self.reached, self.by_costs, self.with_misses];
        let enough = kinds.into_iter().all(|count| count >= AT_LEAST);
        enough.then_some(()).ok_or("too few walks took their whole time".to_string())
    }
}
