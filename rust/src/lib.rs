//! The second simulator: the paper's machines, case files, bounds and walks, written from the paper alone and in other
//! representations than the proved code, and the comparisons of the two over `pipe` and with `bounds` and `bounds0`.
//!
//! What the paper says stands in `machine`, `case`, `listing` and `walk`; `second` answers any request of `pipe` with it.
//! `pipe` talks to the proved code, `generate` makes inputs, and `compare` puts the two answers side by side.

pub mod bytes;
pub mod case;
pub mod compare;
pub mod generate;
pub mod listing;
pub mod machine;
pub mod must_break;
pub mod pipe;
pub mod random;
pub mod refusal;
pub mod second;
pub mod show;
pub mod tally;
pub mod walk;
