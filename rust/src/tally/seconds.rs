//! Second places: how often each refusal that has one was seen where another could have been told by mistake.

use crate::case::{Draft, Faults};
use crate::refusal::Refusal;
use std::collections::BTreeMap;

/// "Refusals: 16 and 18 add the least such node", and 17, 24 and 25 "add the edge".
pub const NUMBERS: [u8; 5] = [16, 17, 18, 24, 25];
const OF_EDGES: [u8; 3] = [17, 24, 25];

#[derive(Clone, Copy, Default)]
struct Seen {
    count: u64,
    /// Node or edge has another number in the scope than in the file.
    apart: u64,
    /// More than one node, or edge, is at fault: the least must be told.
    several: u64,
    /// Edges miss different rules: the least edge decides, not the least number.
    mixed: u64,
    /// An edge is told, and a node that fetches b has row 8 as well.
    before_18: u64,
}

#[derive(Default)]
pub struct Seconds {
    seen: BTreeMap<u8, Seen>,
}

impl Seconds {
    pub fn add(&mut self, draft: &Draft, refusal: Refusal) {
        let number = refusal.number;
        let Some(faults) = Faults::of(draft, refusal.place as usize) else { return };
        let of_edges = OF_EDGES.contains(&number);
        let alike = |other: &(u8, usize)| other.0 == number || of_edges && OF_EDGES.contains(&other.0);
        let first = if of_edges { faults.first_edge } else { faults.first_node };
        let seen = self.seen.entry(number).or_default();
        seen.count += 1;
        seen.apart += u64::from(first > 0);
        seen.several += u64::from(faults.all.iter().filter(|other| alike(other)).count() > 1);
        seen.mixed += u64::from(faults.all.iter().any(|other| alike(other) && other.0 != number));
        seen.before_18 += u64::from(of_edges && faults.all.iter().any(|other| other.0 == 18));
    }

    pub fn table(&self) -> String {
        let mut out = "  number     count     apart   several     mixed before 18\n".to_string();
        for (number, seen) in &self.seen {
            let Seen { count, apart, several, mixed, before_18 } = seen;
            out += &format!("  {number:>6} {count:>9} {apart:>9} {several:>9} {mixed:>9} {before_18:>9}\n");
        }
        out
    }

    /// Fails unless each of the numbers was seen often enough with each way to mistake its second place.
    pub fn demand(&self, numbers: &[u8], at_least: u64) -> Result<(), String> {
        for &number in numbers {
            let seen = self.seen.get(&number).copied().unwrap_or_default();
            let edges = if OF_EDGES.contains(&number) { seen.mixed.min(seen.before_18) } else { at_least };
            if seen.apart.min(seen.several).min(edges) < at_least {
                return Err(format!("second places of refusal {number} were seen too seldom\n{}", self.table()));
            }
        }
        Ok(())
    }
}
