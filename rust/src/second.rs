//! The second simulator's answer to any request of `pipe`.

use crate::case::{check, find, salvage, time, write, Paper};
use crate::machine::{address, step, trace, ways, Outcome};
use crate::pipe::{Answer, Body, Request};
use crate::refusal::Refusal;

pub fn answer(request: &Request) -> Answer {
    match request {
        Request::Step { policy, ways, state, block } => {
            let refused = Body::Step { outcome: 2, state: state.clone() };
            let stepped = step::step(*policy, *ways, state, *block);
            outcome(stepped, refused, |(hit_or_miss, state)| Body::Step {
                outcome: u8::from(hit_or_miss == Outcome::Miss),
                state,
            })
        }
        Request::Block { address, line_size } => {
            outcome(address::block_of(*address, *line_size), Body::Block(0), Body::Block)
        }
        Request::Set { block, sets } => outcome(address::set_of(*block, *sets), Body::Set(0), Body::Set),
        Request::Trace { policy, ways, sets, blocks, marks } => {
            let mut after = marks.clone();
            let run = trace::trace_run(*policy, *ways, *sets, blocks, &mut after);
            let refused = Body::Trace { misses: 0, marks: marks.clone() };
            outcome(run, refused, |misses| Body::Trace { misses, marks: after })
        }
        Request::Check { interruptions, file, numbers } => {
            let mut after = numbers.clone();
            let verdict = check(file, *interruptions, &mut after, &Paper);
            outcome(verdict, Body::Check { numbers: numbers.clone() }, |_| Body::Check { numbers: after })
        }
        Request::Write { content, out } => {
            let mut after = out.clone();
            let written = write(content, &mut after);
            let refused = Body::Write { length: 0, out: out.clone() };
            outcome(written, refused, |length| Body::Write { length: length as u64, out: after })
        }
        Request::Find { file, scope, block, rows } => {
            let mut after = rows.clone();
            let found = find(file, *scope, *block, &mut after);
            let refused = Body::Find { limit: 0, rows: rows.clone() };
            outcome(found, refused, |limit| Body::Find { limit: limit.unwrap_or(0) as u16, rows: after })
        }
        Request::Salvage { file, out, dropped } => {
            let (mut after, mut list) = (out.clone(), dropped.clone());
            let salvaged = salvage(file, &mut after, &mut list);
            let refused = Body::Salvage { length: 0, count: 0, out: out.clone(), dropped: dropped.clone() };
            outcome(salvaged, refused, |(length, count)| Body::Salvage {
                length: length as u64,
                count: count as u64,
                out: after,
                dropped: list,
            })
        }
        Request::Ways { sets, blocks } => {
            let refused = Body::Ways { counts: vec![0; 8] };
            outcome(ways::all_ways(*sets, blocks), refused, |counts| Body::Ways { counts: counts.to_vec() })
        }
        Request::Time { interruptions, penalty, file, costs } => {
            outcome(time(file, costs, *penalty, *interruptions, &Paper), Body::Time(0), Body::Time)
        }
    }
}

/// What follows the verdict, refused or not.
fn outcome<T>(result: Result<T, Refusal>, refused: Body, accepted: impl FnOnce(T) -> Body) -> Answer {
    match result {
        Ok(value) => Answer { refusal: None, body: accepted(value) },
        Err(refusal) => Answer { refusal: Some(refusal), body: refused },
    }
}
