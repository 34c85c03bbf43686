//! Case files, sound and damaged: verdict, place, all 321 numbers and the untouched memory.

use super::again::Again;
use super::kinds::Kinds;
use super::{borders, Comparison, Settings};
use crate::case::{Paper, NUMBERS};
use crate::generate::cases::{sound, Plan};
use crate::generate::damage::{damage, scatter, RULES};
use crate::generate::interruptions;
use crate::generate::pinched::pinched;
use crate::pipe::{Pipe, Request};
use crate::random::Random;
use crate::tally::seconds;

/// How often each refusal must be seen.
const AT_LEAST: u64 = 50;

pub fn run(pipe: &Pipe, settings: &Settings) -> Result<(), String> {
    let mut random = Random::for_part(settings.seed, "files");
    let mut comparison = Comparison::new(pipe);
    let mut again = Again::new(pipe, settings.library.as_ref());
    let mut kinds = Kinds::default();
    for draft in borders::drafts() {
        let file = draft.write();
        again.add(&file)?;
        for interruptions in [0, 1, 65_535] {
            comparison.add(check(&mut random, file.clone(), interruptions, NUMBERS + 3))?;
        }
    }
    for i in 0..settings.files {
        let (file, numbers) = match i % 20 {
            0..=8 => sound_file(&mut random, &mut kinds),
            9 | 10 => scattered_file(&mut random),
            _ => damaged_file(&mut random, i / 20),
        };
        again.add(&file)?;
        let interruptions = interruptions(&mut random);
        comparison.add(check(&mut random, file, interruptions, numbers))?;
    }
    comparison.flush()?;
    kinds.report();
    let tally = &comparison.tally;
    println!("case files, {} and some at the limits, by refusal:\n{}", settings.files, tally.table(5));
    println!("second places: apart from the number in the scope, one of several, of several rules, before an 18:");
    println!("{}", tally.seconds.table());
    tally.dead.report();
    tally.interrupted.report();
    tally.demand(5, RULES.into_iter().chain([0]), AT_LEAST)?;
    tally.seconds.demand(&seconds::NUMBERS, AT_LEAST / 5)?;
    tally.dead.demand(AT_LEAST / 5)?;
    tally.interrupted.demand(AT_LEAST)?;
    kinds.nests.demand(AT_LEAST)?;
    kinds.nests.demand_near(AT_LEAST / 5)?;
    again.finish()
}

/// A file, and how many numbers are lent with it.
pub(super) type Asked = (Vec<u8>, usize);

/// A lent list with noise in it.
fn check(random: &mut Random, file: Vec<u8>, interruptions: u16, numbers: usize) -> Request {
    Request::Check { interruptions, file, numbers: random.noise(numbers, |number| number) }
}

fn sound_file(random: &mut Random, kinds: &mut Kinds) -> Asked {
    let plan = if random.below(400) == 0 { Plan::large(random) } else { Plan::any(random) };
    let draft = if random.chance(5) { pinched(random, &Paper) } else { sound(random, &plan, &Paper) };
    kinds.add(&draft);
    (draft.write(), NUMBERS + random.pick(&[0, 0, 1, 7, 40]))
}

pub(super) fn scattered_file(random: &mut Random) -> Asked {
    let plan = Plan::any(random);
    let mut file = sound(random, &plan, &Paper).write();
    scatter(random, &mut file);
    (file, NUMBERS + random.below(3))
}

/// A fault, or two so that their order shows, in a file that has room for them at first, middle and last places.
pub(super) fn damaged_file(random: &mut Random, turn: usize) -> Asked {
    let plan = Plan::roomy(random);
    let draft = (0..20)
        .map(|_| sound(random, &plan, &Paper))
        .find(|draft| draft.facts.len() > 3 && draft.lists.loops.len() > 2);
    let draft = draft.unwrap_or_else(|| sound(random, &plan, &Paper));
    let [rule, near] = [turn, turn + 1].map(|turn| RULES[turn % RULES.len()]);
    let far = random.pick(&RULES);
    let other = random.pick(&[rule, rule, near, far]);
    let rules = if other == rule { vec![rule] } else { vec![rule, other] };
    damage(random, &draft, &rules)
}
