//! The writer: contents, sound and damaged. What it writes "passes them and reads back as the same lists".

use super::again::{fits, Again};
use super::{borders, Comparison, Settings};
use crate::case::{read_content, write, Content, Draft, Paper, NUMBERS};
use crate::generate::cases::{sound, Plan};
use crate::generate::damage::{damage, spoil, stir, RULES, WRITTEN};
use crate::generate::interruptions;
use crate::pipe::{Pipe, Request};
use crate::random::Random;
use crate::show;

/// How often each refusal must be seen.
const AT_LEAST: u64 = 50;

/// "The layout checks are 1 to 7, 11 to 13, 15, 16 and 19."
const LAYOUT: [u8; 13] = [1, 2, 3, 4, 5, 6, 7, 11, 12, 13, 15, 16, 19];

/// The check's other rules: what is written may break them.
fn others() -> Vec<u8> {
    RULES.into_iter().filter(|rule| *rule != 20 && !LAYOUT.contains(rule)).collect()
}

pub fn run(pipe: &Pipe, settings: &Settings) -> Result<(), String> {
    let mut random = Random::for_part(settings.seed, "writes");
    let mut writing = Writing { contents: Comparison::new(pipe), files: Again::new(pipe, settings.library.as_ref()) };
    for draft in borders::drafts() {
        writing.add(&mut random, Content::of(&draft), false)?;
    }
    for i in 0..settings.written {
        let draft = any_draft(&mut random);
        let rules = aims(&mut random, i / 8);
        let content = match i % 8 {
            0..=2 => Content::of(&draft),
            3 => stirred(&mut random, &draft),
            _ => spoil(&mut random, &draft, &rules),
        };
        writing.add(&mut random, content, i % 8 > 3 && rules.contains(&20))?;
    }
    let Writing { mut contents, files } = writing;
    contents.flush()?;
    report(&contents, settings.written)?;
    files.finish()
}

/// Contents that are written, and the files that come of them.
struct Writing<'a> {
    contents: Comparison<'a>,
    files: Again<'a>,
}

fn report(comparison: &Comparison, contents: usize) -> Result<(), String> {
    let tally = &comparison.tally;
    println!("contents, {contents} and some at the limits, by refusal:\n{}", tally.table(6));
    println!("what was written, checked:\n{}", tally.table(5));
    println!("second places: apart from the number in the scope, one of several:\n{}", tally.seconds.table());
    tally.demand(6, WRITTEN.into_iter().chain([0]), AT_LEAST)?;
    tally.seconds.demand(&[16], AT_LEAST / 5)?;
    match LAYOUT.iter().find(|&&number| tally.get(5, number).count > 0) {
        Some(number) => Err(format!("what was written breaks the layout rule {number}")),
        None => tally.demand(5, others().into_iter().chain([0]), AT_LEAST / 5),
    }
}

/// A sound draft; or one that breaks a rule which is none of the layout's, and which the writer therefore takes.
fn any_draft(random: &mut Random) -> Draft {
    let plan = if random.chance(30) { Plan::any(random) } else { Plan::roomy(random) };
    let draft = sound(random, &plan, &Paper);
    let rule = random.pick(&others());
    let broken = damage(random, &draft, &[rule]).0;
    let taken = read_content(&broken).ok().filter(|_| random.chance(30)).and_then(|content| content.draft());
    taken.unwrap_or(draft)
}

/// A rule to break, or two so that their order shows.
fn aims(random: &mut Random, turn: usize) -> Vec<u8> {
    let [rule, near] = [turn, turn + 1].map(|turn| WRITTEN[turn % WRITTEN.len()]);
    let far = random.pick(&WRITTEN);
    let other = random.pick(&[rule, rule, near, far]);
    if other == rule {
        vec![rule]
    } else {
        vec![rule, other]
    }
}

fn stirred(random: &mut Random, draft: &Draft) -> Content {
    let mut content = Content::of(draft);
    stir(random, &mut content);
    content
}

impl Writing<'_> {
    /// Has the content written, into too few bytes where asked. What comes out must read back as the same lists, and is
    /// checked and written again.
    fn add(&mut self, random: &mut Random, content: Content, short: bool) -> Result<(), String> {
        let whole = content.draft().map_or(200, |draft| draft.write().len());
        let lent = if short { random.pick(&[0, 1, whole / 2, whole - 1]) } else { whole + random.pick(&[0, 0, 1, 40]) };
        let mut out = random.noise(lent, |number| number as u8);
        if fits(&content, lent) {
            self.contents.add(Request::Write { content: content.clone(), out: out.clone() })?;
        }
        let Ok(length) = write(&content, &mut out) else { return Ok(()) };
        out.truncate(length);
        if read_content(&out) != Ok(content) {
            return Err(format!("what is written does not read back as the same lists\n{}", show::file(&out)));
        }
        self.files.add(&out)?;
        let (interruptions, numbers) = (interruptions(random), random.noise(NUMBERS, |number| number));
        self.contents.add(Request::Check { interruptions, file: out, numbers })
    }
}
