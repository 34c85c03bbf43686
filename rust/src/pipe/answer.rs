//! "An answer is the operation's byte, the refusal's number u8 (0: not refused), its place u64 and its second place u64
//! (both 0 where not refused), and then" what the operation hands back.

use super::Request;
use crate::bytes::{take, take_array, take_list};
use crate::machine::SetState;
use crate::refusal::Refusal;

#[derive(Clone, Debug, PartialEq)]
pub struct Answer {
    pub refusal: Option<Refusal>,
    pub body: Body,
}

#[derive(Clone, Debug, PartialEq)]
pub enum Body {
    /// "0 for a hit, 1 for a miss, 2 for a refusal"
    Step {
        outcome: u8,
        state: SetState,
    },
    Block(u16),
    Set(u8),
    Trace {
        misses: u64,
        marks: Vec<u8>,
    },
    Check {
        numbers: Vec<u64>,
    },
    Write {
        length: u64,
        out: Vec<u8>,
    },
    /// "the limit (none, and refused: 0)"
    Find {
        limit: u16,
        rows: Vec<u16>,
    },
    /// "the file's length and how many facts were dropped (refused: 0 and 0)"
    Salvage {
        length: u64,
        count: u64,
        out: Vec<u8>,
        dropped: Vec<u64>,
    },
    /// "eight counts (refused: 0)"
    Ways {
        counts: Vec<u64>,
    },
    /// "the time (refused: 0)"
    Time(u64),
}

/// "A frame that cannot be answered ends the conversation. Its answer is the byte 0, then one byte that says why, then
/// the number of frames answered before it, u64."
#[derive(Clone, Copy, Debug, PartialEq)]
pub struct Ending {
    pub why: u8,
    pub answered: u64,
}

impl Answer {
    /// Takes the answer to the given request off the front; None if other bytes stand there.
    pub fn take(bytes: &mut &[u8], request: &Request) -> Option<Answer> {
        let mut rest = *bytes;
        if take::<u8>(&mut rest)? != request.operation() {
            return None;
        }
        let said = Refusal { number: take(&mut rest)?, place: take(&mut rest)?, second: take(&mut rest)? };
        let nothing = Refusal { number: 0, place: 0, second: 0 };
        let refusal = (said != nothing).then_some(said);
        let body = Body::take(&mut rest, request)?;
        *bytes = rest;
        Some(Answer { refusal, body })
    }
}

impl Body {
    fn take(rest: &mut &[u8], request: &Request) -> Option<Body> {
        Some(match request {
            Request::Step { .. } => {
                let (outcome, lines) = (take(rest)?, take_array(rest)?);
                Body::Step { outcome, state: SetState { lines, bits: take(rest)? } }
            }
            Request::Block { .. } => Body::Block(take(rest)?),
            Request::Set { .. } => Body::Set(take(rest)?),
            Request::Trace { marks, .. } => Body::Trace { misses: take(rest)?, marks: take_list(rest, marks.len())? },
            Request::Check { numbers, .. } => Body::Check { numbers: take_list(rest, numbers.len())? },
            Request::Write { out, .. } => Body::Write { length: take(rest)?, out: take_list(rest, out.len())? },
            Request::Find { rows, .. } => Body::Find { limit: take(rest)?, rows: take_list(rest, rows.len())? },
            Request::Salvage { out, dropped, .. } => {
                let (length, count) = (take(rest)?, take(rest)?);
                let out = take_list(rest, out.len())?;
                Body::Salvage { length, count, out, dropped: take_list(rest, dropped.len())? }
            }
            Request::Ways { .. } => Body::Ways { counts: take_list(rest, 8)? },
            Request::Time { .. } => Body::Time(take(rest)?),
        })
    }
}

impl Ending {
    /// Takes an ending off the front; None if other bytes stand there.
    pub fn take(bytes: &mut &[u8]) -> Option<Ending> {
        let mut rest = *bytes;
        if take::<u8>(&mut rest)? != 0 {
            return None;
        }
        let ending = Ending { why: take(&mut rest)?, answered: take(&mut rest)? };
        *bytes = rest;
        Some(ending)
    }
}
