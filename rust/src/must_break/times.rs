//! Wrong times, each with a small file, costs, a penalty and a walk that takes longer.

use super::fixed::interrupted;
use super::{walk, Break, Wrong};
use crate::case::{judge, time, Bounds, Draft, Graph, Lists, LoopRecord, Paper, Rules, Scope};
use crate::generate::graphs::steps;
use crate::machine::{SetState, NONE};
use crate::pipe::Request;
use crate::show;

/// A walk that takes longer than a wrong rule says.
struct Late {
    found: Break,
    costs: Vec<u32>,
    penalty: u32,
}

const ALL: [Wrong; 6] = [
    Wrong { name: "the shortest way", rules: &Shortest },
    Wrong { name: "B - 1 rounds", rules: &RoundForgotten },
    Wrong { name: "the nodes of an inner loop as steps by themselves", rules: &BesideItsStep },
    Wrong { name: "a sum that wraps in place of 27", rules: &Wrapped },
    Wrong { name: "penalty times one set's bound", rules: &OneSet },
    Wrong { name: "penalty times the total without p", rules: &NotInterrupted },
];

/// In the order of the wrong rules.
fn all() -> Vec<Late> {
    vec![two_sides(), three_rounds(), around_inside(), too_large(), two_misses(), missed_again()]
}

/// The times, to be asked for over `pipe` as well.
pub fn requests() -> Vec<Request> {
    let request = |Late { found, costs, penalty }: Late| Request::Time {
        interruptions: found.most(),
        penalty,
        file: found.draft.write(),
        costs,
    };
    all().into_iter().map(request).collect()
}

pub fn run() -> Result<(), String> {
    for (wrong, late) in ALL.iter().zip(all()) {
        println!("{}", examine(wrong, &late).map_err(|fault| format!("{}: {fault}", wrong.name))?);
    }
    Ok(())
}

/// The story, if the walk takes longer than the wrong time and not than the paper's, or the paper gives none.
fn examine(wrong: &Wrong, Late { found, costs, penalty }: &Late) -> Result<String, String> {
    let file = found.draft.write();
    let case = judge(&file, &Paper).map_err(|refusal| format!("the file is refused: {refusal:?}"))?;
    let walker = walk(&case, found)?;
    let spent = walker.spent(costs, *penalty);
    let said = |rules: &dyn Rules| time(&file, costs, *penalty, found.most(), rules);
    let bad = said(wrong.rules).map_err(|refusal| format!("the wrong rule gives no time: {refusal:?}"))?;
    let right = match said(&Paper) {
        Ok(right) if u128::from(right) < spent => return Err("the paper's own time is exceeded".to_string()),
        Ok(right) => right.to_string(),
        Err(refusal) => show::verdict(Some(refusal)),
    };
    if spent <= bad.into() {
        return Err("nothing is exceeded".to_string());
    }
    let story = show::story(&found.draft, &found.contents, &walker);
    let numbers = format!("spent: {spent}; wrong time: {bad}; by the paper: {right}");
    let costs = show::costs(costs, *penalty);
    Ok(format!("wrong: {}\n{story}  {costs}\n  {numbers}\n  the file:\n{}", wrong.name, show::hex(&file)))
}

/// Nodes with these costs, none of which fetches, and a walk through them.
fn free(costs: &[u32], edges: Vec<(u16, u16)>, loops: Vec<LoopRecord>, walk: &[usize]) -> Late {
    let lists = Lists { nodes: vec![NONE; costs.len()], edges, loops };
    let draft = Draft { version: 1, policy: 0, ways: 1, sets: 1, lists, facts: Vec::new() };
    let found = Break { draft, walk: walk.to_vec(), contents: vec![SetState::EMPTY], interruptions: Vec::new() };
    Late { found, costs: costs.to_vec(), penalty: 0 }
}

/// Node 1 costs more than node 2.
fn two_sides() -> Late {
    free(&[1, 100, 2, 1], vec![(0, 1), (0, 2), (1, 3), (2, 3)], Vec::new(), &[0, 1, 3])
}

fn three_rounds() -> Late {
    free(&[5], vec![(0, 0)], vec![LoopRecord::new(0, 0, 3)], &[0, 0, 0])
}

/// A way that takes node 1 once: but it is a loop of three rounds.
fn around_inside() -> Late {
    free(&[1, 10, 1], vec![(0, 1), (1, 1), (1, 2)], vec![LoopRecord::new(1, 1, 3)], &[0, 1, 1, 1, 2])
}

/// A round of the inner loop costs 2^33, and there are 2^31 of them: in 64 bits that is 0.
fn too_large() -> Late {
    let edges = vec![(0, 1), (1, 2), (2, 3), (3, 4), (4, 1), (4, 2)];
    let loops = vec![LoopRecord::new(1, 4, 65_536), LoopRecord::new(2, 4, 32_768)];
    free(&[0, 0, u32::MAX, u32::MAX, 2], edges, loops, &[0, 1, 2])
}

/// A miss in each of two sets.
fn two_misses() -> Late {
    let lists = Lists { nodes: vec![4, 5], edges: steps(2).collect(), loops: Vec::new() };
    let draft = Draft { version: 1, policy: 0, ways: 1, sets: 2, lists, facts: Vec::new() };
    let contents = vec![SetState::EMPTY; 2];
    let found = Break { draft, walk: vec![0, 1], contents, interruptions: Vec::new() };
    Late { found, costs: vec![1, 1], penalty: 10 }
}

/// The block misses where the loop is entered, and once more behind a handler.
fn missed_again() -> Late {
    Late { found: interrupted(0), costs: vec![1], penalty: 10 }
}

struct Shortest;

impl Rules for Shortest {
    fn onward(&self, ways: &mut dyn Iterator<Item = (u128, usize)>) -> Option<(u128, usize)> {
        ways.min()
    }
}

struct RoundForgotten;

impl Rules for RoundForgotten {
    fn rounds(&self, bound: u128) -> u128 {
        bound - 1
    }
}

struct BesideItsStep;

impl Rules for BesideItsStep {
    fn inner(&self, _graph: &Graph, _scope: Scope, _node: usize) -> Option<usize> {
        None
    }
}

struct Wrapped;

impl Rules for Wrapped {
    fn told(&self, time: u128) -> Option<u64> {
        Some(time as u64)
    }
}

struct OneSet;

impl Rules for OneSet {
    fn charged(&self, bounds: &Bounds) -> u128 {
        bounds.sets.iter().copied().max().unwrap_or(0)
    }
}

struct NotInterrupted;

impl Rules for NotInterrupted {
    fn interruptions(&self, _most: u128, _before_in_set: usize) -> u128 {
        0
    }
}
