//! How often each refusal was seen, and where.

pub mod dead;
pub mod interrupted;
pub mod seconds;

use crate::case::{claimed_numbers, Draft};
use crate::pipe::{Answer, Body, Request};
use dead::Dead;
use interrupted::Interrupted;
use seconds::Seconds;
use std::collections::BTreeMap;

#[derive(Clone, Copy, Default)]
pub struct Places {
    pub count: u64,
    pub first: u64,
    pub middle: u64,
    pub last: u64,
}

#[derive(Default)]
pub struct Tally {
    /// By operation and refusal number; number 0 stands for requests that were not refused.
    seen: BTreeMap<(u8, u8), Places>,
    pub seconds: Seconds,
    pub dead: Dead,
    pub interrupted: Interrupted,
    pub accesses: u64,
    pub misses: u64,
}

/// Among what a refusal's place is counted: from the least place that is possible up to, but not with, the second
/// number. None where the place is always 0.
fn extent(request: &Request, number: u8) -> Option<(u64, u64)> {
    let [nodes, edges, loops, facts] = match request {
        Request::Trace { blocks, .. } | Request::Ways { blocks, .. } if number == 21 => {
            return Some((0, blocks.len() as u64))
        }
        Request::Check { file, .. } | Request::Time { file, .. } => claimed_numbers(file)?,
        Request::Write { content, .. } => content.numbers(),
        // Past the graph's rules a finder and a salvage have no places.
        Request::Find { file, .. } | Request::Salvage { file, .. } if number <= 10 || number == 26 => {
            claimed_numbers(file)?
        }
        _ => return None,
    }
    .map(|number| number as u64);
    match number {
        6 | 8 | 9 => Some((0, edges)),
        7 => Some((0, loops)),
        // Node 0 is in one loop at the most, and one loop's bound is no count too large; and it is never dead.
        10 | 26 => Some((1, nodes)),
        // The first fact has no previous one.
        13 => Some((1, facts)),
        11..=18 | 24 | 25 => Some((0, facts)),
        _ => None,
    }
}

/// The lists that the request is about, where they can be told apart.
fn lists(request: &Request) -> Option<Draft> {
    match request {
        Request::Check { file, .. }
        | Request::Find { file, .. }
        | Request::Salvage { file, .. }
        | Request::Time { file, .. } => Draft::skim(file).ok(),
        Request::Write { content, .. } => content.draft(),
        _ => None,
    }
}

impl Tally {
    pub fn add(&mut self, request: &Request, answer: &Answer) {
        let (number, place) = answer.refusal.map_or((0, 0), |refusal| (refusal.number, refusal.place));
        let places = self.seen.entry((request.operation(), number)).or_default();
        places.count += 1;
        if let Some((least, end)) = extent(request, number).filter(|(least, end)| end - least > 2) {
            match place {
                _ if place == least => places.first += 1,
                _ if place + 1 == end => places.last += 1,
                _ => places.middle += 1,
            }
        }
        let two_places = answer.refusal.filter(|refusal| seconds::NUMBERS.contains(&refusal.number));
        if let Some((refusal, draft)) = two_places.and_then(|refusal| Some((refusal, lists(request)?))) {
            self.seconds.add(&draft, refusal);
        }
        if let Some(draft) = answer.refusal.filter(|refusal| refusal.number == 26).and_then(|_| lists(request)) {
            self.dead.add(&draft);
        }
        if let (Request::Check { interruptions, .. }, None) = (request, answer.refusal) {
            lists(request).into_iter().for_each(|draft| self.interrupted.add(&draft, *interruptions));
        }
        if let (Request::Trace { blocks, .. }, None, Body::Trace { misses, .. }) =
            (request, answer.refusal, &answer.body)
        {
            self.accesses += blocks.len() as u64;
            self.misses += misses;
        }
    }

    pub fn get(&self, operation: u8, number: u8) -> Places {
        self.seen.get(&(operation, number)).copied().unwrap_or_default()
    }

    /// The counts of one operation; the columns behind the first count lists of three and more.
    pub fn table(&self, operation: u8) -> String {
        let mut out = "  number     count     first    middle      last\n".to_string();
        for (&(_, number), places) in self.seen.iter().filter(|((seen, _), _)| *seen == operation) {
            let name = if number == 0 { "none".to_string() } else { number.to_string() };
            out += &format!("  {name:>6} {:>9}", places.count);
            if places.first + places.middle + places.last > 0 {
                out += &format!(" {:>9} {:>9} {:>9}", places.first, places.middle, places.last);
            }
            out += "\n";
        }
        out
    }

    /// Fails unless each of the numbers was seen often enough, and a tenth as often at first, at middle and at last places
    /// where it has places.
    pub fn demand(&self, operation: u8, numbers: impl IntoIterator<Item = u8>, at_least: u64) -> Result<(), String> {
        for number in numbers {
            let places = self.get(operation, number);
            let placed =
                matches!((operation, number), (5 | 6 | 10, 6..=18 | 24..=26) | (7 | 8, 6..=10 | 26) | (4 | 9, 21));
            let fewest = places.first.min(places.middle).min(places.last);
            if places.count < at_least || placed && fewest * 10 < at_least {
                return Err(format!(
                    "operation {operation}: refusal {number} was seen too seldom\n{}",
                    self.table(operation)
                ));
            }
        }
        Ok(())
    }
}
