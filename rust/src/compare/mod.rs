//! The comparisons: the same requests to `pipe` and to the second simulator, until an answer differs.

pub mod again;
pub mod borders;
pub mod bounds;
pub mod caches;
pub mod evidence;
pub mod files;
pub mod finds;
pub mod frames;
pub mod gathering;
mod kinds;
mod nests;
pub mod salvages;
pub mod times;
pub mod walks;
pub mod ways;
pub mod writes;

use crate::pipe::{Answer, Pipe, Request};
use crate::second;
use crate::show;
use crate::tally::Tally;

/// How much goes into one conversation, in bytes of lists.
const CONVERSATION: usize = 8 << 20;

/// What a run of the comparisons is given.
pub struct Settings {
    pub seed: u64,
    /// Accesses for each policy, number of ways and of sets.
    pub accesses: usize,
    /// Single steps for each policy and number of ways.
    pub steps: usize,
    /// Case files.
    pub files: usize,
    /// Case files that `bounds` and `bounds0` are started on.
    pub printed: usize,
    /// Small graphs whose evidence is tried.
    pub graphs: usize,
    /// Small files that are walked through.
    pub walked: usize,
    /// Contents that are written.
    pub written: usize,
    /// Small graphs that facts are found in.
    pub searched: usize,
    /// Files that are salvaged.
    pub salvaged: usize,
    /// Traces that are counted for all ways.
    pub counted: usize,
    /// Files whose time is asked for.
    pub timed: usize,
    /// A program that writes the content of its input again by the library: for files that `pipe` has no room for.
    pub library: Option<Pipe>,
}

/// Asks `pipe` and the second simulator; the answers, if they are the same.
pub fn agree(pipe: &Pipe, requests: &[Request]) -> Result<Vec<Answer>, String> {
    let answers = pipe.ask(requests)?;
    for (request, answer) in requests.iter().zip(&answers) {
        let own = second::answer(request);
        if own != *answer {
            return Err(show::difference(request, &own, answer));
        }
    }
    Ok(answers)
}

/// Collects requests into conversations of a good size, and counts what the answers were.
pub struct Comparison<'a> {
    pipe: &'a Pipe,
    waiting: Vec<Request>,
    weight: usize,
    pub tally: Tally,
}

impl<'a> Comparison<'a> {
    pub fn new(pipe: &'a Pipe) -> Comparison<'a> {
        Comparison { pipe, waiting: Vec::new(), weight: 0, tally: Tally::default() }
    }

    pub fn add(&mut self, request: Request) -> Result<(), String> {
        self.weight += match &request {
            Request::Trace { blocks, marks, .. } => 2 * blocks.len() + marks.len(),
            Request::Check { file, numbers, .. } => file.len() + 8 * numbers.len(),
            Request::Write { content, out } => 2 * content.rows.len() + out.len(),
            Request::Find { file, rows, .. } => file.len() + 2 * rows.len(),
            Request::Salvage { file, out, dropped } => file.len() + out.len() + 8 * dropped.len(),
            Request::Ways { blocks, .. } => 2 * blocks.len(),
            Request::Time { file, costs, .. } => file.len() + 4 * costs.len(),
            _ => 32,
        };
        self.waiting.push(request);
        if self.weight > CONVERSATION {
            self.flush()?;
        }
        Ok(())
    }

    pub fn flush(&mut self) -> Result<(), String> {
        let answers = agree(self.pipe, &self.waiting)?;
        for (request, answer) in self.waiting.iter().zip(&answers) {
            self.tally.add(request, answer);
        }
        self.waiting.clear();
        self.weight = 0;
        Ok(())
    }
}
