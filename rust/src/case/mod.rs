//! Case files: their lists, the rules that they keep or break, and the bounds that they earn.

mod bounds;
mod content;
mod draft;
mod facts;
mod faults;
mod finder;
mod gathered;
mod graph;
mod graph_rules;
mod layout;
mod rows;
mod rules;
mod salvage;
mod times;
mod verdict;
mod writer;

pub use bounds::Bounds;
pub use content::{loop_numbers, Content};
pub use draft::{Draft, FactRecord, Lists, LoopRecord};
pub use facts::Fact;
pub use faults::Faults;
pub use finder::{find, search, Found};
pub use gathered::Gathered;
pub use graph::{Graph, Loop, Scope};
pub use layout::{claimed_numbers, loops_have_w, Numbers, LARGEST, TRAILER, VERSIONS};
pub use rows::{Row, RowRecord, ROW_NUMBERS};
pub use rules::{Paper, Rules, Stakes};
pub use salvage::{salvage, Apart, Salvaged};
pub use times::{time, Ways, LARGEST_TIME};
pub use verdict::{check, judge, Case, NUMBERS};
pub use writer::{read_content, write};

/// "B from 1 to 1,000,000".
pub const LARGEST_BOUND: u32 = 1_000_000;

/// "a node's count to 4,294,967,295".
pub const LARGEST_COUNT: u128 = 4_294_967_295;

/// "4,294,967,295 says no such limit": the W of a loop without one.
pub const NO_LIMIT: u32 = 4_294_967_295;

/// "16-bit loop number or 65,535 for the whole graph".
pub const WHOLE_GRAPH: u16 = 65_535;
