//! Item 8 of the requests, "Salvage a file with bad facts": the bytes of the facts are taken apart, each fact is judged by
//! itself behind the last one kept, and those that stand are put together again.

use super::facts::{read_fact, Fact, Ground};
use super::graph_rules::read_graph;
use super::layout::{read_layout, Layout, TRAILER};
use super::{Graph, Paper};
use crate::bytes::take_array;
use crate::refusal::Refusal;

/// Where the trailer has the number of facts.
const FACTS: usize = 22;

/// A file whose graph is sound, with its facts apart.
pub struct Apart<'a> {
    file: &'a [u8],
    layout: Layout<'a>,
    graph: Graph,
    /// For each fact that the trailer counts its bytes. One that is cut short has all that are left, and those after it none.
    pub pieces: Vec<&'a [u8]>,
}

/// What is left of a file, "with a list of dropped facts, each with the first number it earns and places".
#[derive(Clone, Debug, PartialEq)]
pub struct Salvaged {
    pub file: Vec<u8>,
    pub dropped: Vec<Refusal>,
}

/// "Refusals: 1 to 10 and 26 as in the check, then 20 if file or list does not fit." How long the file is, and how many
/// facts were dropped: three numbers each in the lent list.
pub fn salvage(file: &[u8], out: &mut [u8], dropped: &mut [u64]) -> Result<(usize, usize), Refusal> {
    let salvaged = Apart::read(file)?.salvage();
    let told = |fact: &Refusal| [fact.number.into(), fact.place, fact.second];
    let list: Vec<u64> = salvaged.dropped.iter().flat_map(told).collect();
    let room = out.get_mut(..salvaged.file.len()).zip(dropped.get_mut(..list.len()));
    let (file_room, list_room) = room.ok_or(Refusal::new(20, 0))?;
    file_room.copy_from_slice(&salvaged.file);
    list_room.copy_from_slice(&list);
    Ok((salvaged.file.len(), salvaged.dropped.len()))
}

impl<'a> Apart<'a> {
    pub fn read(file: &'a [u8]) -> Result<Apart<'a>, Refusal> {
        let layout = read_layout(file)?;
        let graph = read_graph(&layout)?;
        let mut rest = layout.rest;
        let pieces = (0..layout.facts).map(|_| take_piece(&mut rest, &graph)).collect();
        Ok(Apart { file, layout, graph, pieces })
    }

    /// "drops each fact that earns 12 to 14 or 16 to 18, 24 or 25, drops everything from a fact cut short onward, drops stray
    /// bytes, and writes the rest". "An order fault (13) is judged against the last fact kept."
    pub fn salvage(&self) -> Salvaged {
        let (mut kept, mut dropped) = (Vec::new(), Vec::new());
        let mut last_kept = None;
        for (place, piece) in self.pieces.iter().enumerate() {
            match self.judge(place, last_kept.as_ref()) {
                Ok(fact) => {
                    kept.push(*piece);
                    last_kept = Some(fact);
                }
                Err(refusal) => dropped.push(refusal),
            }
        }
        Salvaged { file: self.with(&kept), dropped }
    }

    /// The fact at this place, or the first rule that it breaks. No bytes at all are too few for a head: "facts after a cut
    /// one get 11".
    pub fn judge(&self, place: usize, before: Option<&Fact>) -> Result<Fact, Refusal> {
        let ground = Ground { geometry: self.layout.geometry, graph: &self.graph, rules: &Paper };
        read_fact(&mut &self.pieces[place][..], place, before, &ground)
    }

    /// The fact that is cut short, if one is: everything from it onward is dropped.
    pub fn cut_short(&self) -> Option<usize> {
        self.pieces.iter().position(|piece| length(piece, &self.graph) != Some(piece.len()))
    }

    /// How many stray bytes there are between the last fact and the trailer.
    pub fn strays(&self) -> usize {
        self.layout.rest.len() - self.pieces.concat().len()
    }

    /// The file's graph with these facts: "has the first file's version".
    pub fn with(&self, facts: &[&[u8]]) -> Vec<u8> {
        let graph = [self.layout.nodes, self.layout.edges, self.layout.loops].concat();
        let mut trailer = self.file[self.file.len() - TRAILER..].to_vec();
        trailer[FACTS..FACTS + 2].copy_from_slice(&(facts.len() as u16).to_le_bytes());
        [graph, facts.concat(), trailer].concat()
    }
}

/// How long the fact that begins here is. "Where a fact's scope number is bad its length is unknown, so it is treated as cut
/// short."
fn length(mut bytes: &[u8], graph: &Graph) -> Option<usize> {
    let [scope, _block, _limit] = take_array(&mut bytes)?;
    Some(6 + 16 * graph.scope_nodes(graph.scope(scope)?).count())
}

/// The bytes of the next fact.
fn take_piece<'a>(rest: &mut &'a [u8], graph: &Graph) -> &'a [u8] {
    match length(rest, graph).and_then(|length| rest.split_at_checked(length)) {
        Some((piece, after)) => {
            *rest = after;
            piece
        }
        None => std::mem::take(rest),
    }
}
