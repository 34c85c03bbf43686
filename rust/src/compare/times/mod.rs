//! Item 13 of the requests, "Cycles for the slot table": times of files for costs, a penalty and a number of interruptions; and
//! "For every walk of demand 3, the sum of its node costs and penalties is no larger."

mod seen;
mod walks;

use super::again::Again;
use super::files::{damaged_file, scattered_file};
use super::{borders, Comparison, Settings};
use crate::case::{claimed_numbers, Draft, Paper};
use crate::generate::cases::{sound, Plan};
use crate::generate::costs::{brink, costs, how_many, penalty};
use crate::generate::damage::TIMED;
use crate::generate::interruptions;
use crate::generate::pinched::pinched;
use crate::pipe::{room, Pipe, Request};
use crate::random::Random;
use seen::Seen;

/// How often each refusal must be seen.
const AT_LEAST: u64 = 50;

struct Timing<'a> {
    requests: Comparison<'a>,
    files: Again<'a>,
    seen: Seen,
}

pub fn run(pipe: &Pipe, settings: &Settings) -> Result<(), String> {
    let mut random = Random::for_part(settings.seed, "times");
    let files = Again::new(pipe, settings.library.as_ref());
    let mut timing = Timing { requests: Comparison::new(pipe), files, seen: Seen::default() };
    for draft in borders::drafts() {
        timing.at_the_limits(&mut random, &draft)?;
    }
    for turn in 0..settings.timed {
        match turn % 10 {
            0..=2 => timing.sound(&mut random)?,
            3 => timing.on_the_brink(&mut random)?,
            4 => timing.any(&mut random, scattered_file)?,
            _ => timing.any(&mut random, |random| damaged_file(random, turn / 2))?,
        }
    }
    let Timing { mut requests, files, seen } = timing;
    requests.flush()?;
    println!("times, {} and some at the limits, by refusal:\n{}", settings.timed, requests.tally.table(10));
    seen.report();
    requests.tally.demand(10, TIMED.into_iter().chain([0]), AT_LEAST)?;
    seen.demand(AT_LEAST)?;
    walks::run(pipe, settings, &mut random)?;
    files.finish()
}

impl Timing<'_> {
    fn ask(&mut self, file: Vec<u8>, costs: Vec<u32>, penalty: u32, interruptions: u16) -> Result<(), String> {
        self.seen.add(&file, &costs, penalty, interruptions);
        self.requests.add(Request::Time { interruptions, penalty, file, costs })
    }

    /// With the largest costs, with none but the penalty, and with any.
    fn at_the_limits(&mut self, random: &mut Random, draft: &Draft) -> Result<(), String> {
        let (file, nodes) = (draft.write(), draft.lists.nodes.len());
        self.ask(file.clone(), vec![u32::MAX; nodes], u32::MAX, 65_535)?;
        self.ask(file.clone(), vec![0; nodes], u32::MAX, 1)?;
        let (costs, penalty) = (costs(random, nodes), penalty(random));
        self.ask(file, costs, penalty, 0)
    }

    fn sound(&mut self, random: &mut Random) -> Result<(), String> {
        let plan = if random.below(200) == 0 { Plan::large(random) } else { Plan::any(random) };
        let draft = if random.chance(5) { pinched(random, &Paper) } else { sound(random, &plan, &Paper) };
        self.seen.add_draft(&draft);
        self.any(random, |_| (draft.write(), 0))
    }

    /// Some that are just not too large, some that just are, and some of these with too few costs or too many.
    fn on_the_brink(&mut self, random: &mut Random) -> Result<(), String> {
        let more = random.pick(&[-2, -1, 0, 0, 1, 1, 2, 1_000]);
        let (draft, mut costs, penalty) = brink(random, more);
        let handed = how_many(random, costs.len());
        costs.resize(handed, u32::MAX);
        self.files.add(&draft.write())?;
        self.ask(draft.write(), costs, penalty, interruptions(random))
    }

    /// Any costs for a file that may be damaged.
    fn any(&mut self, random: &mut Random, file: impl FnOnce(&mut Random) -> (Vec<u8>, usize)) -> Result<(), String> {
        let (file, _) = file(random);
        let nodes = claimed_numbers(&file).map_or(3, |[nodes, ..]| nodes);
        let handed = how_many(random, nodes).min(room::COSTS);
        let (costs, penalty) = (costs(random, handed), penalty(random));
        self.files.add(&file)?;
        self.ask(file, costs, penalty, interruptions(random))
    }
}
