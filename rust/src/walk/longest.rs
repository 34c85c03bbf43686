//! The walk that takes a graph's time, where there is one.

use super::{is_walk, keeps_limits};
use crate::case::{Scope, Ways};

/// The visits of the longest way, each loop on it gone round B times along its own longest way: if that is a walk that keeps
/// the limits, and has at most so many visits. It need not be one: a way may end where no edge leads back to the header, or
/// leave a loop where no edge leads on to the next step.
pub fn longest_walk(ways: &Ways, most: usize) -> Option<Vec<usize>> {
    let visits = round(ways, Scope::Whole, most)?;
    (is_walk(ways.graph, &visits) && keeps_limits(ways.graph, &visits)).then_some(visits)
}

/// One round along the longest way inside the scope.
fn round(ways: &Ways, scope: Scope, most: usize) -> Option<Vec<usize>> {
    let mut visits = Vec::new();
    for first in ways.way(scope) {
        match ways.rules.inner(ways.graph, scope, first) {
            None => visits.push(first),
            Some(i) => {
                let (one, bound) = (round(ways, Scope::Loop(i), most)?, ways.graph.loops[i].bound);
                let times = usize::try_from(bound).ok().filter(|times| times.saturating_mul(one.len()) <= most)?;
                visits.extend(one.repeat(times));
            }
        }
    }
    (visits.len() <= most).then_some(visits)
}
