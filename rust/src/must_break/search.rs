//! Looks for breaks with random small files, walks and contents, and keeps the smallest.

use super::{examine, wrong, Break, Wrong};
use crate::case::judge;
use crate::compare::Settings;
use crate::generate::braids::braid;
use crate::generate::states::contents;
use crate::machine::SetState;
use crate::random::Random;
use crate::walk::{Bent, Walker};

pub fn search(settings: &Settings) -> Result<(), String> {
    let mut random = Random::for_part(settings.seed, "search");
    for wrong in &wrong::ALL {
        let mut smallest: Option<Break> = None;
        let mut seen = 0;
        for _ in 0..settings.walked {
            if let Some(found) = attempt(&mut random, wrong) {
                seen += 1;
                if smallest.as_ref().is_none_or(|before| size(&found) < size(before)) {
                    smallest = Some(found);
                }
            }
        }
        println!("{seen} of {} files exceed", settings.walked);
        let found = smallest.ok_or(format!("no break of {} was found", wrong.name))?;
        println!("{}", examine(wrong, &found)?);
    }
    Ok(())
}

/// What a person has to look at.
fn size(found: &Break) -> usize {
    let lists = &found.draft.lists;
    let lines = |state: &SetState| state.lines.iter().filter(|&&line| line != crate::machine::NONE).count();
    let starts: usize = found.contents.iter().map(lines).sum();
    let rows: usize = found.draft.facts.iter().map(|fact| fact.rows.len()).sum();
    let handlers = 8 * found.interruptions.len();
    8 * lists.nodes.len()
        + 4 * lists.edges.len()
        + 4 * lists.loops.len()
        + rows
        + 2 * found.walk.len()
        + starts
        + handlers
}

fn attempt(random: &mut Random, wrong: &Wrong) -> Option<Break> {
    let draft = braid(random, wrong.rules);
    let case = judge(&draft.write(), wrong.rules).ok()?;
    for _ in 0..20 {
        let most = random.below(3) as u16;
        let contents = contents(random, case.geometry, &draft.lists.nodes);
        let mut walker = Walker::new(&case, &contents);
        let bent = Bent::any(random, most);
        walker.wander(random, 60, bent);
        // The caller may hand as many as there are.
        let (walk, interruptions) = (walker.walk.clone(), walker.interruptions.clone());
        if !walker.misses.exceeding(&case.bounds(interruptions.len() as u16, wrong.rules)).is_empty() {
            return Some(Break { walk, draft, contents, interruptions });
        }
    }
    None
}
