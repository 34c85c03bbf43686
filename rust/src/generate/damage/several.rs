//! Files with faults in several facts at once, of every kind that a salvage drops, and bytes that belong to none.

use super::facts::damage as damage_fact;
use super::{cut, layout, Spot, RULES};
use crate::case::Draft;
use crate::random::Random;

/// "each fact that earns 12 to 14 or 16 to 18, 24 or 25"
const DROPPED: [u8; 8] = [12, 13, 14, 16, 17, 24, 25, 18];

/// The graph is sound, and so are some of the facts, as a rule.
pub fn several(random: &mut Random, draft: &Draft) -> Vec<u8> {
    let mut rules: Vec<u8> = (0..random.within(1..=4)).map(|_| random.pick(&DROPPED)).collect();
    rules.sort_by_key(|rule| std::cmp::Reverse(RULES.iter().position(|other| other == rule)));
    let mut draft = draft.clone();
    for rule in rules {
        let spot = random.pick(&Spot::ALL);
        damage_fact(random, &mut draft, rule, spot);
    }
    if random.chance(30) {
        shuffle(random, &mut draft);
    }
    let mut file = draft.write();
    if random.chance(20) {
        layout::damage(random, &draft, &mut file, 19);
    }
    if random.chance(20) {
        let (rule, spot) = (random.pick(&[11, 15]), random.pick(&Spot::ALL));
        cut(random, &draft, &mut file, rule, spot);
    }
    file
}

/// Facts change places, so that several are out of order, some of them against one that is dropped itself.
fn shuffle(random: &mut Random, draft: &mut Draft) {
    for _ in 0..random.within(1..=3) {
        let (one, other) = (random.below(draft.facts.len()), random.below(draft.facts.len()));
        if one.max(other) < draft.facts.len() {
            draft.facts.swap(one, other);
        }
    }
}
