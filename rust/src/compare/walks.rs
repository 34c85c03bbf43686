//! "No walk and no content misses more than is printed": walks through small files that `check` accepts, with the
//! numbers that `check` wrote. "Demand 3 is to hold for every walk, every placing of at most p interruptions, and any legal
//! content after each; only our own misses are counted."

use super::again::Again;
use super::nests::Nests;
use super::Settings;
use crate::case::{judge, Bounds, Case, Draft, Paper, NUMBERS};
use crate::generate::braids::braid;
use crate::generate::cases::{sound, Plan};
use crate::generate::pinched::pinched;
use crate::generate::states::contents;
use crate::pipe::{Answer, Body, Pipe, Request};
use crate::random::Random;
use crate::show;
use crate::walk::{is_walk, keeps_limits, Bent, Measure, Misses, Walker};

/// How many files go into one conversation.
const TOGETHER: usize = 500;
/// How often each file is walked through, and how far at the most.
const WALKS: usize = 24;
const LONGEST: usize = 300;

#[derive(Default)]
struct Seen {
    files: u64,
    walks: u64,
    visits: u64,
    misses: u128,
    numbers: u64,
    reached: u64,
    nests: Nests,
    /// Walks that visit a header as often as its W allows.
    used_up: u64,
    interruptions: u64,
    /// Walks that are interrupted, those that are so p times, and those that miss more than is allowed without interruptions.
    interrupted: u64,
    all_used: u64,
    past_none: u64,
    /// Bounds of files with p from 1 on that are larger than without interruptions, and those of them that were reached, by policy.
    raised: u64,
    raised_reached: [u64; 4],
}

/// How often each kind of W, and of interrupted walk, must be seen.
const AT_LEAST: u64 = 50;

pub fn run(pipe: &Pipe, settings: &Settings) -> Result<(), String> {
    let mut random = Random::for_part(settings.seed, "walks");
    let mut again = Again::new(pipe, settings.library.as_ref());
    let mut seen = Seen::default();
    let mut left = settings.walked;
    while left > 0 {
        let drafts: Vec<(Draft, u16)> =
            (0..left.min(TOGETHER)).map(|_| (small_file(&mut random), most(&mut random))).collect();
        drafts.iter().try_for_each(|(draft, _)| again.add(&draft.write()))?;
        let check = |(draft, interruptions): &(Draft, u16)| Request::Check {
            interruptions: *interruptions,
            file: draft.write(),
            numbers: vec![0; NUMBERS],
        };
        let checks: Vec<Request> = drafts.iter().map(check).collect();
        // The numbers are taken as they come: here they are held against walks alone.
        for ((draft, interruptions), answer) in drafts.iter().zip(pipe.ask(&checks)?) {
            walk_through(&mut random, draft, *interruptions, &answer, &mut seen)?;
        }
        left -= drafts.len();
    }
    seen.report();
    seen.demand()?;
    again.finish()
}

impl Seen {
    fn report(&self) {
        let Seen { files, walks, visits, misses, numbers, reached, used_up, .. } = self;
        println!("walks: {walks} through {files} files, {visits} visits, {misses} misses");
        println!("  of {numbers} bounds (totals, sets and facts) {reached} were reached and none exceeded");
        self.nests.report();
        println!("  walks that visit a header as often as W allows: {used_up}");
        let Seen { interruptions, interrupted, all_used, past_none, raised, raised_reached, .. } = self;
        println!("  {interruptions} interruptions; walks with some: {interrupted}, with p: {all_used}, with more misses than without any are allowed: {past_none}");
        println!("  bounds that p raises: {raised}; of them were reached, for LRU, FIFO, NMRU and the tree: {raised_reached:?}");
    }

    /// A walk, and the bounds where nothing interrupts it.
    fn add(&mut self, walker: &Walker, most: u16, without: &Bounds) {
        let interruptions = walker.interruptions.len();
        self.walks += 1;
        self.visits += walker.walk.len() as u64;
        self.misses += walker.misses.total;
        self.used_up += u64::from(walker.uses_up_visits());
        self.interruptions += interruptions as u64;
        self.interrupted += u64::from(interruptions > 0);
        self.all_used += u64::from(interruptions > 0 && interruptions == most.into());
        self.past_none += u64::from(!walker.misses.exceeding(without).is_empty());
    }

    fn demand(&self) -> Result<(), String> {
        self.nests.demand(AT_LEAST)?;
        if self.used_up < AT_LEAST {
            return Err("too few walks used up a W".to_string());
        }
        let interrupted = [self.interrupted, self.all_used, self.past_none];
        interrupted
            .iter()
            .chain(&self.raised_reached)
            .all(|&seen| seen >= AT_LEAST)
            .then_some(())
            .ok_or("too few walks were interrupted".to_string())
    }
}

/// How often handlers may run: as a rule not often, so that the bounds are below N.
pub(super) fn most(random: &mut Random) -> u16 {
    let few = random.within(2..=6) as u16;
    random.pick(&[0, 0, 1, 1, 1, 2, few, few, 65_535])
}

pub(super) fn small_file(random: &mut Random) -> Draft {
    let plan = Plan::small(random);
    match random.below(10) {
        0..=4 => braid(random, &Paper),
        5 => pinched(random, &Paper),
        _ => sound(random, &plan, &Paper),
    }
}

/// The numbers that `check` wrote.
fn written(answer: &Answer, case: &Case) -> Result<Bounds, String> {
    let Body::Check { numbers } = &answer.body else { return Err("no answer to a check".to_string()) };
    let list = |from: usize, length: usize| numbers[from..from + length].iter().map(|&number| number.into()).collect();
    Ok(Bounds { total: numbers[0].into(), sets: list(1, case.geometry.sets.into()), facts: list(65, case.facts.len()) })
}

fn walk_through(
    random: &mut Random,
    draft: &Draft,
    interruptions: u16,
    answer: &Answer,
    seen: &mut Seen,
) -> Result<(), String> {
    let case = judge(&draft.write(), &Paper).ok().filter(|_| answer.refusal.is_none());
    let case = case.ok_or_else(|| format!("a sound file is refused\n{}", show::file(&draft.write())))?;
    let bounds = written(answer, &case)?;
    let without = case.bounds(0, &Paper);
    let mut most = Misses::none(bounds.sets.len(), bounds.facts.len());
    for _ in 0..WALKS {
        let contents = contents(random, case.geometry, &draft.lists.nodes);
        let longest = random.pick(&[10, LONGEST, LONGEST]);
        let mut walker = Walker::new(&case, &contents);
        let bent = Bent::any(random, interruptions);
        walker.wander(random, longest, bent);
        if !is_walk(&case.graph, &walker.walk) || !keeps_limits(&case.graph, &walker.walk) {
            return Err(format!("no walk, or not within the limits\n{}", show::story(draft, &contents, &walker)));
        }
        if let Some(Measure { of, misses, bound }) = walker.misses.exceeding(&bounds).first() {
            let story = show::story(draft, &contents, &walker);
            return Err(format!("misses {of}: {misses}; bound: {bound}\n{story}{}", show::hex(&draft.write())));
        }
        seen.add(&walker, interruptions, &without);
        most = most.or_more(&walker.misses);
    }
    seen.files += 1;
    seen.nests.add(draft);
    seen.numbers += 1 + bounds.sets.len() as u64 + bounds.facts.len() as u64;
    seen.reached += most.reaching(&bounds).count() as u64;
    let raised = |measure: &Measure| measure.bound > measure.of.among(&without);
    seen.raised += most.beside(&bounds).filter(raised).count() as u64;
    let policy = case.geometry.shape.policy as usize;
    seen.raised_reached[policy] += most.reaching(&bounds).filter(raised).count() as u64;
    Ok(())
}
