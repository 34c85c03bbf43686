//! Contents with faults that are each aimed at one rule of the writer.

use super::{facts, graph, Spot};
use crate::case::{loop_numbers, Content, Draft, LARGEST};
use crate::random::Random;

/// Every rule that the writer can find broken, in its order: 20 is about the lent bytes.
pub const WRITTEN: [u8; 10] = [2, 3, 4, 6, 7, 12, 13, 15, 16, 20];

/// The content with faults aimed at the rules, later ones first, as in a file.
pub fn spoil(random: &mut Random, draft: &Draft, rules: &[u8]) -> Content {
    let mut rules = rules.to_vec();
    rules.sort_by_key(|rule| std::cmp::Reverse(WRITTEN.iter().position(|other| other == rule)));
    let mut draft = draft.clone();
    for &rule in &rules {
        let spot = random.pick(&Spot::ALL);
        match rule {
            6 | 7 => graph::damage(random, &mut draft, rule, spot),
            12 | 13 | 16 => facts::damage(random, &mut draft, rule, spot),
            _ => {}
        }
    }
    let mut content = Content::of(&draft);
    for &rule in &rules {
        let spot = random.pick(&Spot::ALL);
        match rule {
            2 => content.version = random.pick(&[0, 3, 4, 255]),
            3 => spoil_machine(random, &mut content),
            4 => spoil_lists(random, &mut content),
            7 if random.chance(30) => widen_loop(random, &mut content, spot),
            15 => miscount(random, &mut content, spot),
            _ => {}
        }
    }
    content
}

fn spoil_machine(random: &mut Random, content: &mut Content) {
    match random.below(4) {
        0 => content.policy = random.pick(&[4, 255]),
        1 => content.ways = random.pick(&[0, 9, 255]),
        2 => content.sets = random.pick(&[0, 65, 255]),
        // "NMRU with one way: 3." The tree has 2, 4 or 8.
        _ => (content.policy, content.ways) = random.pick(&[(2, 1), (3, 1), (3, 5), (3, 7)]),
    }
}

/// Rule 4: a number out of range, a list that is no whole number of records, or rows that no head names. Loops of the other
/// version are whole records only by chance.
fn spoil_lists(random: &mut Random, content: &mut Content) {
    let past = LARGEST.map(|largest| usize::from(largest) + 1);
    match random.below(10) {
        0 => content.nodes.clear(),
        1 => content.nodes.resize(past[0], 0),
        2 => content.edges.resize(2 * past[1], 0),
        3 => content.loops.resize(loop_numbers(content.version) * past[2], 1),
        4 => content.heads.resize(4 * past[3], 0),
        5 => lengthen(random, &mut content.edges),
        6 => lengthen(random, &mut content.loops),
        7 => lengthen(random, &mut content.heads),
        8 => content.version ^= 3,
        _ if content.heads.is_empty() || random.chance(50) => lengthen(random, &mut content.rows),
        _ => {
            let i = random.below(content.heads.len() / 4);
            let named = content.heads[4 * i + 3];
            content.heads[4 * i + 3] = random.pick(&[named + 1, named.wrapping_sub(1), 0, 65_535]);
        }
    }
}

/// One number more or fewer, or a whole record of rows more.
fn lengthen<T: Copy + From<u8>>(random: &mut Random, list: &mut Vec<T>) {
    if random.chance(50) && !list.is_empty() {
        list.pop();
    } else {
        let more = random.pick(&[1, 8]);
        list.extend(vec![T::from(1); more]);
    }
}

/// Rule 7: a first or last node that has more than 16 bits, and its low ones may be right.
fn widen_loop(random: &mut Random, content: &mut Content, spot: Spot) {
    if !content.loops.is_empty() {
        let a_loop = loop_numbers(content.version);
        let i = spot.index(random, content.loops.len() / a_loop);
        let field = a_loop * i + random.below(2);
        content.loops[field] = random.pick(&[content.loops[field] + 65_536, 65_536, u32::MAX]);
    }
}

/// Rule 15: the fact at the spot brings more or fewer rows than its scope has nodes, at the next one's cost or not.
fn miscount(random: &mut Random, content: &mut Content, spot: Spot) {
    let facts = content.heads.len() / 4;
    if facts == 0 {
        return;
    }
    let i = spot.index(random, facts);
    let before: usize = content.heads.chunks(4).take(i).map(|head| usize::from(head[3])).sum();
    let start = 8 * before;
    match random.below(3) {
        0 if i + 1 < facts && content.heads[4 * i + 7] > 0 => {
            content.heads[4 * i + 3] += 1;
            content.heads[4 * i + 7] -= 1;
        }
        1 if content.heads[4 * i + 3] > 0 => {
            content.heads[4 * i + 3] -= 1;
            content.rows.drain(start..start + 8);
        }
        _ => {
            content.heads[4 * i + 3] += 1;
            content.rows.splice(start..start, [9, 65_535, 65_535, 65_535, 65_535, 65_535, 65_535, 65_535]);
        }
    }
}

/// Faults without aim: numbers changed anywhere.
pub fn stir(random: &mut Random, content: &mut Content) {
    for _ in 0..random.within(1..=3) {
        let list = match random.below(4) {
            0 => &mut content.nodes,
            1 => &mut content.edges,
            2 => &mut content.heads,
            _ => &mut content.rows,
        };
        let at = random.below(list.len());
        let (far, flip) = (random.word(), 1 << random.below(5));
        let near = list.get(at).map_or(0, |number| number ^ flip);
        let number = random.pick(&[far, near]);
        list.iter_mut().skip(at).take(1).for_each(|old| *old = number);
    }
}
