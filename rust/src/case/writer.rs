//! Item 4 of the requests: the writer, and the layout checks that what it writes passes.

use super::draft::{Draft, Lists};
use super::facts::{take_rows, Fact, Ground};
use super::graph_rules::{rule_6, rule_7};
use super::layout::{numbers_in_range, read_layout};
use super::{Content, Graph, Paper, RowRecord, VERSIONS};
use crate::bytes::take_array;
use crate::machine::Geometry;
use crate::refusal::{demand, Refusal};

/// "2 for versions other than 1 and 2, in the writer too, as its first"; "Refusals, in this order: 3, 4, 6 and 7; then for each fact in turn 12, 13, 15 and 16, with their places, 15 standing
/// for a wrong number of rows; then 20 if the file does not fit." "Bytes past the file stay; on a refusal all do."
pub fn write(content: &Content, out: &mut [u8]) -> Result<usize, Refusal> {
    demand(2, VERSIONS.contains(&content.version))?;
    let geometry = Geometry::read(content.policy, content.ways, content.sets)?;
    demand(4, numbers_in_range(content.numbers()))?;
    let draft = content.draft().ok_or(Refusal::new(4, 0))?;
    let graph = read_shape(&draft.lists)?;
    let ground = Ground { geometry, graph: &graph, rules: &Paper };
    let mut previous = None;
    for (place, fact) in draft.facts.iter().enumerate() {
        let rows = |size| Some(fact.rows.clone()).filter(|rows| rows.len() == size);
        previous = Some(ground.lay(place, previous.as_ref(), [fact.scope, fact.block, fact.limit], rows)?);
    }
    let file = draft.write();
    let room = out.get_mut(..file.len()).ok_or(Refusal::new(20, 0))?;
    room.copy_from_slice(&file);
    Ok(file.len())
}

/// "The layout checks are 1 to 7, 11 to 13, 15, 16 and 19." The content of a file that passes them.
pub fn read_content(file: &[u8]) -> Result<Content, Refusal> {
    let layout = read_layout(file)?;
    let graph = read_shape(&Lists::read(&layout))?;
    let ground = Ground { geometry: layout.geometry, graph: &graph, rules: &Paper };
    let mut rest = layout.rest;
    let mut previous = None;
    for place in 0..layout.facts {
        let head = take_array(&mut rest).ok_or(Refusal::new(11, place))?;
        previous = Some(ground.lay(place, previous.as_ref(), head, |size| take_rows(&mut rest, size))?);
    }
    demand(19, rest.is_empty())?;
    Ok(Content::of(&Draft::skim(file)?))
}

/// Rules 6 and 7.
fn read_shape(lists: &Lists) -> Result<Graph, Refusal> {
    rule_6(lists)?;
    rule_7(lists)?;
    Ok(Graph::new(lists))
}

impl Ground<'_> {
    /// Rules 12, 13, 15 and 16. Whoever calls hands the rows of a scope of so many nodes, or none where there are not as
    /// many.
    fn lay(
        &self,
        place: usize,
        previous: Option<&Fact>,
        head: [u16; 3],
        rows: impl FnOnce(usize) -> Option<Vec<RowRecord>>,
    ) -> Result<Fact, Refusal> {
        let mut fact = self.take_turn(place, previous, head)?;
        let records = rows(self.size(&fact)).ok_or(Refusal::new(15, place))?;
        fact.rows = self.sound_rows(place, &fact, &records)?;
        Ok(fact)
    }
}
