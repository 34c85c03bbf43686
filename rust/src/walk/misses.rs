//! The misses of a walk: in all, of each set, and of each fact's accesses.

use crate::case::{Bounds, Case};

#[derive(Clone, Debug, PartialEq)]
pub struct Misses {
    pub total: u128,
    pub sets: Vec<u128>,
    pub facts: Vec<u128>,
}

/// One of a walk's numbers beside its bound.
#[derive(Clone, Copy, Debug, PartialEq)]
pub struct Measure {
    pub of: Number,
    pub misses: u128,
    pub bound: u128,
}

#[derive(Clone, Copy, Debug, PartialEq)]
pub enum Number {
    Total,
    Set(usize),
    Fact(usize),
}

impl Number {
    /// This number's bound.
    pub fn among(self, bounds: &Bounds) -> u128 {
        match self {
            Number::Total => bounds.total,
            Number::Set(set) => bounds.sets[set],
            Number::Fact(fact) => bounds.facts[fact],
        }
    }
}

impl Misses {
    pub fn none(sets: usize, facts: usize) -> Misses {
        Misses { total: 0, sets: vec![0; sets], facts: vec![0; facts] }
    }

    /// A fact's accesses are the fetches of its block at nodes of its scope.
    pub fn add(&mut self, case: &Case, node: usize, block: u16, set: usize) {
        self.total += 1;
        self.sets[set] += 1;
        for (misses, fact) in self.facts.iter_mut().zip(&case.facts) {
            let counts = fact.block == block && case.graph.scope_nodes(fact.scope).contains(&node);
            *misses += u128::from(counts);
        }
    }

    /// Each number beside its bound.
    pub fn beside<'a>(&'a self, bounds: &'a Bounds) -> impl Iterator<Item = Measure> + 'a {
        let total = std::iter::once((Number::Total, self.total));
        let sets = self.sets.iter().enumerate().map(|(set, &misses)| (Number::Set(set), misses));
        let facts = self.facts.iter().enumerate().map(|(fact, &misses)| (Number::Fact(fact), misses));
        total.chain(sets).chain(facts).map(|(of, misses)| Measure { of, misses, bound: of.among(bounds) })
    }

    /// The numbers that are larger than their bounds. There must be none.
    pub fn exceeding(&self, bounds: &Bounds) -> Vec<Measure> {
        self.beside(bounds).filter(|number| number.misses > number.bound).collect()
    }

    /// The numbers that are as large as their bounds: how sharp the bounds are, and how hard the walks tried.
    pub fn reaching<'a>(&'a self, bounds: &'a Bounds) -> impl Iterator<Item = Measure> + 'a {
        self.beside(bounds).filter(|number| number.misses == number.bound && number.misses > 0)
    }

    /// Of each number the larger one.
    pub fn or_more(self, other: &Misses) -> Misses {
        let larger = |one: Vec<u128>, two: &[u128]| one.into_iter().zip(two).map(|(one, &two)| one.max(two)).collect();
        Misses {
            total: self.total.max(other.total),
            sets: larger(self.sets, &other.sets),
            facts: larger(self.facts, &other.facts),
        }
    }
}

impl std::fmt::Display for Number {
    fn fmt(&self, f: &mut std::fmt::Formatter) -> std::fmt::Result {
        match self {
            Number::Total => write!(f, "in all"),
            Number::Set(set) => write!(f, "of set {set}"),
            Number::Fact(fact) => write!(f, "of fact {fact}"),
        }
    }
}
