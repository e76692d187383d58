//! Blocks of records, the same in tables and indexes (document 01, chain and count rules).

use crate::layout::{word, BLOCK_HEAD, LAST_RECORD, PREVIOUS};
use std::slice::ChunksExact;

/// The blocks of a file, counted from 1.
#[derive(Clone, Copy)]
pub struct Blocks<'a> {
    area: &'a [u8],
    block_size: usize,
    record_size: usize,
}

impl<'a> Blocks<'a> {
    /// The blocks that fill an area.
    pub fn new(area: &'a [u8], block_size: usize, record_size: usize) -> Blocks<'a> {
        Blocks {
            area,
            block_size,
            record_size,
        }
    }

    /// The block of a number, where the file has it.
    pub fn get(&self, number: u16) -> Option<Block<'a>> {
        let start = usize::from(number).checked_sub(1)? * self.block_size;
        let bytes = self.area.get(start..start + self.block_size)?;
        Some(Block {
            bytes,
            record_size: self.record_size,
        })
    }
}

/// One block: its head and its records.
#[derive(Clone, Copy)]
pub struct Block<'a> {
    bytes: &'a [u8],
    record_size: usize,
}

impl<'a> Block<'a> {
    /// The number of the next block in the chain, 0 at the end.
    pub fn next(&self) -> u16 {
        word(self.bytes, 0)
    }

    /// The number of the previous block in the chain, 0 at the start.
    pub fn previous(&self) -> u16 {
        word(self.bytes, PREVIOUS)
    }

    /// How many records the block holds, where its third word is a good one.
    pub fn record_count(&self) -> Option<usize> {
        let last = word(self.bytes, LAST_RECORD) as i16;
        let Ok(last) = usize::try_from(last) else {
            let none = usize::from(last.unsigned_abs()) == self.record_size;
            return none.then_some(0);
        };
        let fits = last + self.record_size <= self.bytes.len() - BLOCK_HEAD;
        (fits && last % self.record_size == 0).then(|| last / self.record_size + 1)
    }

    /// The records in their places, where the count is a good one.
    pub fn records(&self) -> Option<ChunksExact<'a, u8>> {
        let end = BLOCK_HEAD + self.record_count()? * self.record_size;
        Some(self.bytes[BLOCK_HEAD..end].chunks_exact(self.record_size))
    }

    /// The record in the first place, where the count is a good one and there are records.
    pub fn first_record(&self) -> Option<&'a [u8]> {
        self.records()?.next()
    }
}
