//! Policy, ways and sets, and refusal 3: "policy, ways or sets out of range".

use crate::refusal::{demand, Refusal};

#[derive(Clone, Copy, Debug, PartialEq, Eq)]
pub enum Policy {
    Lru = 0,
    Fifo = 1,
    Nmru = 2,
    Tree = 3,
}

/// A policy and its number of ways.
#[derive(Clone, Copy, Debug, PartialEq, Eq)]
pub struct Shape {
    pub policy: Policy,
    pub ways: usize,
}

impl Shape {
    /// "policy (0 LRU, 1 FIFO, 2 NMRU)"; "k ways (LRU, FIFO 1 to 8; NMRU 2 to 8)". "Policy 3 is tree replacement with 2, 4 or 8
    /// ways"; "3 for other numbers of ways or for policies above 3".
    pub fn read(policy: u8, ways: u8) -> Result<Shape, Refusal> {
        let (policy, offered) = match policy {
            0 => (Policy::Lru, (1..=8).contains(&ways)),
            1 => (Policy::Fifo, (1..=8).contains(&ways)),
            2 => (Policy::Nmru, (2..=8).contains(&ways)),
            3 => (Policy::Tree, [2, 4, 8].contains(&ways)),
            _ => return Err(Refusal::new(3, 0)),
        };
        demand(3, offered)?;
        Ok(Shape { policy, ways: ways.into() })
    }

    /// Every policy number with every number of ways that it may have.
    pub fn all_numbers() -> Vec<(u8, u8)> {
        let pairs = (0..=3).flat_map(|policy| (1..=8).map(move |ways| (policy, ways)));
        pairs.filter(|&(policy, ways)| Shape::read(policy, ways).is_ok()).collect()
    }
}

/// A shape and its number of sets.
#[derive(Clone, Copy, Debug)]
pub struct Geometry {
    pub shape: Shape,
    pub sets: u16,
}

impl Geometry {
    pub fn read(policy: u8, ways: u8, sets: u8) -> Result<Geometry, Refusal> {
        let shape = Shape::read(policy, ways)?;
        Ok(Geometry { shape, sets: read_sets(sets)? })
    }

    /// "Block b lives in set b mod S."
    pub fn set_of(&self, block: u16) -> usize {
        usize::from(block % self.sets)
    }
}

/// "S sets (1 to 64)".
pub fn read_sets(sets: u8) -> Result<u16, Refusal> {
    demand(3, (1..=64).contains(&sets))?;
    Ok(sets.into())
}
