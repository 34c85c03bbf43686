//! "Its evidence is one row for each node of the scope". A row speaks of the moment before the node's own fetch.

use crate::machine::{block_or_none, NONE};
use std::collections::BTreeSet;

/// "16 bytes a row: the number and seven slots".
pub const ROW_NUMBERS: usize = 8;
pub type RowRecord = [u16; ROW_NUMBERS];

#[derive(Clone, Debug, PartialEq, Eq)]
pub enum Row {
    /// "a number 0 to 7 with that many blocks"
    Blocks(BTreeSet<u16>),
    /// 8
    Many,
    /// 9, "not since b"
    NotSince,
}

impl Row {
    /// The row that a record means, if the record is laid out as the file demands: numbers to 9, blocks strictly rising,
    /// free slots 65,535.
    pub fn read(record: &RowRecord) -> Option<Row> {
        let (&number, slots) = record.split_first()?;
        let listed = if number < 8 { usize::from(number) } else { 0 };
        let (taken, free) = slots.split_at(listed);
        let blocks: Vec<u16> = taken.iter().copied().filter_map(block_or_none).collect();
        let rising = blocks.len() == listed && blocks.is_sorted_by(|a, b| a < b);
        if !rising || free.iter().any(|&slot| slot != NONE) {
            return None;
        }
        match number {
            0..=7 => Some(Row::Blocks(blocks.into_iter().collect())),
            8 => Some(Row::Many),
            9 => Some(Row::NotSince),
            _ => None,
        }
    }

    /// "at most l-1 blocks, strictly rising, each of b's set, none equal to b or none"
    pub fn sound(&self, limit: usize, block: u16, sets: u16) -> bool {
        match self {
            Row::Blocks(blocks) => {
                let of_the_set = |&other: &u16| other % sets == block % sets && other != block;
                blocks.len() < limit && blocks.iter().all(of_the_set)
            }
            Row::Many | Row::NotSince => true,
        }
    }

    pub fn record(&self) -> RowRecord {
        let mut record = [NONE; 8];
        match self {
            Row::Blocks(blocks) => {
                record[0] = blocks.len() as u16;
                record[1..].iter_mut().zip(blocks).for_each(|(slot, &block)| *slot = block);
            }
            Row::Many => record[0] = 8,
            Row::NotSince => record[0] = 9,
        }
        record
    }
}
