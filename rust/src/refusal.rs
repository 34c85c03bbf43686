//! "Each returns number and place and changes no lent memory." Since item 1 of the requests, "The result gets a second
//! place", and it is 0 in every refusal that the item does not name.

#[derive(Clone, Copy, Debug, PartialEq, Eq)]
pub struct Refusal {
    pub number: u8,
    pub place: u64,
    pub second: u64,
}

impl Refusal {
    pub fn new(number: u8, place: usize) -> Refusal {
        Refusal { number, place: place as u64, second: 0 }
    }

    /// The same, and where in the fact: at a node's number or an edge's.
    pub fn at(self, second: usize) -> Refusal {
        Refusal { second: second as u64, ..self }
    }
}

/// Refuses with the given number and place 0 unless `holds`.
pub fn demand(number: u8, holds: bool) -> Result<(), Refusal> {
    refuse_least(number, [!holds])
}

/// "The least place is given": refuses at the first of the items that is bad.
pub fn refuse_least(number: u8, bad: impl IntoIterator<Item = bool>) -> Result<(), Refusal> {
    match bad.into_iter().position(|is_bad| is_bad) {
        Some(place) => Err(Refusal::new(number, place)),
        None => Ok(()),
    }
}
