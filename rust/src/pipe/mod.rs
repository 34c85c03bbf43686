//! The binary framing of docs/PIPE.md, and the child process that speaks it.

mod answer;
mod child;
mod request;

pub use answer::{Answer, Body, Ending};
pub use child::Pipe;
pub use request::Request;

/// "`pipe` has fixed room": what the largest frames that it answers may hold.
pub mod room {
    pub const ACCESSES: usize = 1_048_576;
    pub const MARKS: usize = 1_048_576;
    pub const FILE: usize = 4_300_000;
    pub const NUMBERS: usize = 4_096;
    /// Numbers in the lists of a content, and lent bytes.
    pub const NODES: usize = 4_096;
    pub const EDGES: usize = 16_384;
    pub const LOOPS: usize = 1_024;
    pub const HEADS: usize = 2_048;
    pub const ROWS: usize = 1_048_576;
    pub const OUT: usize = 2_150_000;
    /// Numbers for the rows that are found.
    pub const FOUND: usize = 16_384;
    /// Bytes of a file that is salvaged, of what is left of it, and numbers for the facts that are dropped.
    pub const WRECK: usize = 1_048_576;
    pub const SALVAGED: usize = 1_048_576;
    pub const DROPPED: usize = 4_096;
    /// Costs of nodes.
    pub const COSTS: usize = 4_096;
}
