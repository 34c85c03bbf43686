//! "A file and its listing": what the programs `bounds` and `bounds0` print, for one interruption and for none.

use crate::case::{judge, Bounds, Paper};
use crate::refusal::{demand, Refusal};

/// "the program reads at most 65,536 bytes and prints `refused 28 0` for longer input"; since item 1 "A printed refusal
/// ends with the second place: `refused 28 0 0`."
pub const LONGEST_INPUT: usize = 65_536;

/// "Each line: word, number of the set or fact, bound. Every set up to S is listed. A refusal prints `refused`, number,
/// place", and then its second place.
pub fn listing(input: &[u8], interruptions: u16) -> String {
    match bounds(input, interruptions) {
        Ok(Bounds { total, sets, facts }) => format!("total {total}\n{}{}", lines("set", &sets), lines("fact", &facts)),
        Err(Refusal { number, place, second }) => format!("refused {number} {place} {second}\n"),
    }
}

fn bounds(input: &[u8], interruptions: u16) -> Result<Bounds, Refusal> {
    demand(28, input.len() <= LONGEST_INPUT)?;
    Ok(judge(input, &Paper)?.bounds(interruptions, &Paper))
}

fn lines(word: &str, bounds: &[u128]) -> String {
    bounds.iter().enumerate().map(|(number, bound)| format!("{word} {number} {bound}\n")).collect()
}
