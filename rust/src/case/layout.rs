//! The trailer and where the sections lie: rules 1 to 5, all with place 0.

use crate::bytes::{take, take_array};
use crate::machine::Geometry;
use crate::refusal::{demand, Refusal};

/// The trailer's length.
pub const TRAILER: usize = 32;

/// "Nodes 1 to 1,024, edges 0 to 4,096, loops 0 to 64, facts 0 to 256": the least is `LEAST`.
pub const LARGEST: [u16; 4] = [1_024, 4_096, 64, 256];
const LEAST: [u16; 4] = [1, 0, 0, 0];

/// "Refusals: 2 for versions other than 1 and 2".
pub const VERSIONS: [u8; 2] = [1, 2];

/// "Version 2 of the case file gives each loop a further 32-bit number W".
pub fn loops_have_w(version: u8) -> bool {
    version == 2
}

/// Bytes of one node, edge and loop.
pub fn sizes(version: u8) -> [usize; 3] {
    [2, 4, if loops_have_w(version) { 12 } else { 8 }]
}

/// The sections' bytes. `rest` begins with the facts and ends at the trailer.
pub struct Layout<'a> {
    pub version: u8,
    pub geometry: Geometry,
    pub nodes: &'a [u8],
    pub edges: &'a [u8],
    pub loops: &'a [u8],
    pub rest: &'a [u8],
    pub facts: usize,
}

struct Trailer {
    offsets: [u32; 4],
    numbers: [u16; 4],
    policy: u8,
    ways: u8,
    sets: u8,
    version: u8,
    letters: [u8; 4],
}

impl Trailer {
    fn read(mut bytes: &[u8]) -> Option<Trailer> {
        let from = &mut bytes;
        let (offsets, numbers) = (take_array(from)?, take_array(from)?);
        let [policy, ways, sets, version] = take_array(from)?;
        Some(Trailer { offsets, numbers, policy, ways, sets, version, letters: take::<u32>(from)?.to_le_bytes() })
    }

    /// Where nodes, edges, loops and facts begin when they follow each other "without gaps, from offset 0".
    fn starts(&self) -> [u64; 4] {
        let mut starts = [0; 4];
        for (i, size) in sizes(self.version).into_iter().enumerate() {
            starts[i + 1] = starts[i] + size as u64 * u64::from(self.numbers[i]);
        }
        starts
    }
}

/// How many nodes, edges, loops and facts there are.
pub type Numbers = [usize; 4];

/// Rule 4, "a number of nodes, edges, loops or facts out of range".
pub fn numbers_in_range(numbers: Numbers) -> bool {
    let ranges = LEAST.iter().zip(&LARGEST);
    numbers.iter().zip(ranges).all(|(&number, (&least, &largest))| (least.into()..=largest.into()).contains(&number))
}

/// The numbers of nodes, edges, loops and facts that a file claims to have.
pub fn claimed_numbers(file: &[u8]) -> Option<Numbers> {
    Some(Trailer::read(file.last_chunk::<TRAILER>()?)?.numbers.map(usize::from))
}

pub fn read_layout(file: &[u8]) -> Result<Layout<'_>, Refusal> {
    let split = file.split_last_chunk::<TRAILER>();
    let (body, trailer) =
        split.and_then(|(body, last)| Some((body, Trailer::read(last)?))).ok_or(Refusal::new(1, 0))?;
    demand(2, trailer.letters == *b"QMBT" && VERSIONS.contains(&trailer.version))?;
    let geometry = Geometry::read(trailer.policy, trailer.ways, trailer.sets)?;
    demand(4, numbers_in_range(trailer.numbers.map(usize::from)))?;
    let starts = trailer.starts();
    demand(5, trailer.offsets.map(u64::from) == starts && starts[3] <= body.len() as u64)?;
    let [_, edges, loops, facts] = starts.map(|start| start as usize);
    Ok(Layout {
        version: trailer.version,
        geometry,
        nodes: &body[..edges],
        edges: &body[edges..loops],
        loops: &body[loops..facts],
        rest: &body[facts..],
        facts: trailer.numbers[3].into(),
    })
}
