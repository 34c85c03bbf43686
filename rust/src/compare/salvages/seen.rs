//! What was dropped, and where a hasty salvage would have dropped something else.

use crate::case::{Apart, Salvaged};
use std::collections::{BTreeMap, BTreeSet};

/// "each fact that earns 12 to 14 or 16 to 18, 24 or 25", "everything from a fact cut short onward".
const NUMBERS: [u8; 10] = [11, 12, 13, 14, 15, 16, 17, 18, 24, 25];

#[derive(Default)]
pub struct Seen {
    /// Dropped facts by number: how many, and how many of them at the first, a middle and the last place of three or more.
    dropped: BTreeMap<u8, [u64; 4]>,
    /// Files by how many different numbers their dropped facts have.
    kinds: [u64; 6],
    /// Facts that are cut short, by number.
    cut: BTreeMap<u8, u64>,
    /// Facts that are dropped for 12, 13 or 14, and the next one is kept.
    passed_over: u64,
    /// Facts dropped for 13 that would stand behind the one just before them, which is dropped too; and facts kept that would
    /// not.
    behind_dropped: u64,
    before_dropped: u64,
    /// Files in which no fact is dropped: the same file, and one that had stray bytes.
    same: u64,
    strays: u64,
    /// Too little room for the file alone, for the list alone, and for both.
    short: [u64; 3],
    pub removals: u64,
    pub cut_everywhere: u64,
}

/// The number of the fact at this place, if it is dropped.
fn earned(salvaged: &Salvaged, place: usize) -> Option<u8> {
    salvaged.dropped.iter().find(|refusal| refusal.place == place as u64).map(|refusal| refusal.number)
}

impl Seen {
    pub fn add(&mut self, apart: &Apart, salvaged: &Salvaged, (bytes, numbers): (usize, usize)) {
        let Salvaged { file, dropped } = salvaged;
        let facts = apart.pieces.len();
        for refusal in dropped {
            let seen = self.dropped.entry(refusal.number).or_default();
            let place = refusal.place as usize;
            let spot = if place == 0 { 1 } else { 2 + usize::from(place + 1 == facts) };
            seen[0] += 1;
            seen[spot] += u64::from(facts > 2);
        }
        let kinds: BTreeSet<u8> = dropped.iter().map(|refusal| refusal.number).collect();
        self.kinds[kinds.len().min(5)] += 1;
        let cut = apart.cut_short().and_then(|place| earned(salvaged, place));
        cut.into_iter().for_each(|number| *self.cut.entry(number).or_default() += 1);
        self.add_order(apart, salvaged);
        if dropped.is_empty() {
            *(if apart.strays() > 0 { &mut self.strays } else { &mut self.same }) += 1;
        }
        let lacks = [bytes < file.len(), numbers < 3 * dropped.len()];
        match lacks {
            [true, false] => self.short[0] += 1,
            [false, true] => self.short[1] += 1,
            [true, true] => self.short[2] += 1,
            _ => {}
        }
    }

    fn add_order(&mut self, apart: &Apart, salvaged: &Salvaged) {
        let block = |place: usize| apart.pieces[place].get(2..4).map(|bytes| u16::from_le_bytes([bytes[0], bytes[1]]));
        for place in 1..apart.pieces.len() {
            let (before, here) = (earned(salvaged, place - 1), earned(salvaged, place));
            let (Some(block_before), Some(block_here)) = (block(place - 1), block(place)) else { continue };
            self.behind_dropped += u64::from(before.is_some() && here == Some(13) && block_here > block_before);
            self.before_dropped += u64::from(before.is_some() && here.is_none() && block_here < block_before);
            self.passed_over += u64::from(matches!(before, Some(12..=14)) && here.is_none());
        }
    }

    pub fn report(&self, files: usize) {
        println!("dropped facts, of {files} files and some at the limits or cut, by number:");
        println!("  number     count     first    middle      last");
        for (number, [count, first, middle, last]) in &self.dropped {
            println!("  {number:>6} {count:>9} {first:>9} {middle:>9} {last:>9}");
        }
        println!("  files with dropped facts of 0 to 5 different numbers: {:?}", self.kinds);
        println!(
            "  facts that are cut short, by number: {:?}; files cut at every byte: {}",
            self.cut, self.cut_everywhere
        );
        println!("  dropped for 12, 13 or 14 with the next one kept: {}", self.passed_over);
        let (dropped, kept) = (self.behind_dropped, self.before_dropped);
        println!("  order against a dropped fact would be another: {dropped} dropped, {kept} kept");
        println!("  files that stay the same: {}, that lose stray bytes alone: {}", self.same, self.strays);
        println!("  too little room for the file, for the list, for both: {:?}", self.short);
        println!("  removals of facts from what is left: {}", self.removals);
    }

    pub fn demand(&self, at_least: u64) -> Result<(), String> {
        let placed = |number: u8| {
            self.dropped.get(&number).is_some_and(|[count, first, middle, last]| {
                let of_place = [first, middle, last].map(|seen| if number == 13 { *middle.min(last) } else { *seen });
                *count >= at_least && of_place.iter().all(|seen| seen * 10 >= at_least)
            })
        };
        let cut = |number: u8| self.cut.get(&number).is_some_and(|&seen| seen * 10 >= at_least);
        let kinds = self.kinds[..4].iter().chain([&self.passed_over, &self.same, &self.removals]);
        let rare = [&self.behind_dropped, &self.before_dropped, &self.strays, &self.cut_everywhere];
        let enough = NUMBERS.into_iter().all(placed)
            && [11, 12, 13, 14, 15].into_iter().all(cut)
            && kinds.into_iter().all(|&seen| seen >= at_least)
            && rare.into_iter().chain(&self.short).all(|&seen| seen * 5 >= at_least);
        enough.then_some(()).ok_or("some kind of dropped fact, or of room, was seen too seldom".to_string())
    }
}
