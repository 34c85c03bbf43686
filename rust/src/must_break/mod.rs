//! Wrong bounds, each of which some small file, walk and start content exceed: what the comparison of walks cannot show,
//! since a bound that is merely too large passes all of them. And wrong salvages, and wrong times.

mod fixed;
mod salvages;
mod search;
mod times;
mod wrong;

pub use search::search;

use crate::case::{judge, Case, Draft, Paper, Rules, NUMBERS};
use crate::compare::again::Again;
use crate::compare::agree;
use crate::machine::{legal, SetState};
use crate::pipe::{Pipe, Request};
use crate::show;
use crate::walk::{is_walk, keeps_limits, Interruption, Measure, Walker};

/// A file, a walk, a start content and interruptions on which misses exceed what a wrong rule gives.
pub struct Break {
    pub draft: Draft,
    pub walk: Vec<usize>,
    pub contents: Vec<SetState>,
    pub interruptions: Vec<Interruption>,
}

impl Break {
    /// How many interruptions the caller has to hand.
    fn most(&self) -> u16 {
        self.interruptions.len() as u16
    }
}

/// One wrong rule, with its name.
pub struct Wrong {
    pub name: &'static str,
    pub rules: &'static dyn Rules,
}

/// Shows the fixed breaks; with `pipe`, also that `check` gives the right numbers on them, that they come out again, that
/// what a wrong salvage spoils is salvaged well, and that `time` gives the right times.
pub fn run(pipe: Option<&Pipe>) -> Result<(), String> {
    for (wrong, found) in wrong::ALL.iter().zip(fixed::all()) {
        println!("{}", examine(wrong, &found).map_err(|fault| format!("{}: {fault}", wrong.name))?);
    }
    salvages::run()?;
    times::run()?;
    pipe.map_or(Ok(()), through)
}

fn through(pipe: &Pipe) -> Result<(), String> {
    let mut again = Again::new(pipe, None);
    for found in fixed::all() {
        let file = found.draft.write();
        again.add(&file)?;
        agree(pipe, &[Request::Check { interruptions: found.most(), file, numbers: vec![0; NUMBERS] }])?;
    }
    for file in salvages::files() {
        let (out, dropped) = (vec![165; file.len()], vec![7; 9]);
        agree(pipe, &[Request::Salvage { file, out, dropped }])?;
    }
    agree(pipe, &times::requests())?;
    again.finish()
}

/// The break's story, if it is one: the wrong rule accepts the file and the walk exceeds the wrong number; the paper
/// refuses the file, or its own numbers are not exceeded.
fn examine(wrong: &Wrong, found: &Break) -> Result<String, String> {
    let file = found.draft.write();
    let case =
        judge(&file, wrong.rules).map_err(|refusal| format!("not even the wrong rule accepts it: {refusal:?}"))?;
    let walker = walk(&case, found)?;
    let exceeded = walker.misses.exceeding(&case.bounds(found.most(), wrong.rules));
    let Measure { of, misses, bound } = *exceeded.last().ok_or("nothing is exceeded")?;
    let verdict = match judge(&file, &Paper).map(|right| right.bounds(found.most(), &Paper)) {
        Err(refusal) => show::verdict(Some(refusal)),
        Ok(right) if walker.misses.exceeding(&right).is_empty() => of.among(&right).to_string(),
        Ok(_) => return Err("the paper's own bounds are exceeded".to_string()),
    };
    let story = show::story(&found.draft, &found.contents, &walker);
    let numbers = format!("misses {of}: {misses}; wrong bound: {bound}; by the paper: {verdict}");
    Ok(format!("wrong: {}\n{story}  {numbers}\n  the file:\n{}", wrong.name, show::hex(&file)))
}

/// Goes along the walk, which must keep the limits, from the content, which must be legal, as must be what handlers leave.
fn walk<'a>(case: &'a Case, found: &Break) -> Result<Walker<'a>, String> {
    let left = found.interruptions.iter().flat_map(|interruption| &interruption.left);
    if !found.contents.iter().chain(left).all(|state| legal(case.geometry.shape, state)) {
        return Err("the start content, or what a handler leaves, is not legal".to_string());
    }
    if !is_walk(&case.graph, &found.walk) || !keeps_limits(&case.graph, &found.walk) {
        return Err("no walk, or not within the limits".to_string());
    }
    let mut walker = Walker::new(case, &found.contents);
    for before in 0..=found.walk.len() {
        let handlers = found.interruptions.iter().filter(|interruption| interruption.after == before);
        handlers.for_each(|interruption| walker.interrupt(&interruption.left));
        found.walk[before..].iter().take(1).for_each(|&node| walker.visit(node));
    }
    Ok(walker)
}
