//! A table, and the table check (document 01, "The table").

use super::fields::Fields;
use super::{chain, counts, keys, Block, Blocks, Field, Header, PlacedField, Refusal};
use crate::layout::BLOCK_HEAD;

/// A part of a table, or of an MB file.
#[derive(Clone, Copy, Debug, PartialEq, Eq)]
pub struct Part {
    /// Where it begins, from the file's first byte.
    pub start: usize,
    /// Its bytes.
    pub length: usize,
}

/// A table that keeps rules 1 to 7.
pub struct Table<'a> {
    /// The numbers of its header.
    pub header: Header,
    /// Its blocks, used and free.
    pub blocks: Blocks<'a>,
    pub(super) bytes: &'a [u8],
    pub(super) fields: Fields<'a>,
}

impl<'a> Table<'a> {
    /// Reads a table, or answers the first of rules 1 to 7 that is broken.
    pub fn read(bytes: &'a [u8]) -> Result<Table<'a>, Refusal> {
        let header = Header::read(bytes)?;
        let fields = Fields::read(bytes, &header)?;
        let area = &bytes[header.header_size..];
        Ok(Table {
            blocks: Blocks::new(area, header.block_size, header.record_size),
            header,
            bytes,
            fields,
        })
    }

    /// The bytes of a part.
    pub fn part(&self, part: Part) -> &'a [u8] {
        &self.bytes[part.start..part.start + part.length]
    }

    /// The fields in their order.
    pub fn fields(&self) -> impl Iterator<Item = Field> + 'a {
        self.fields.iter()
    }

    /// The field of a number, from 1.
    pub fn field(&self, number: usize) -> Result<PlacedField, Refusal> {
        self.fields.placed(number).ok_or(Refusal::Argument)
    }

    /// The widths of the key fields, added up.
    pub fn key_length(&self) -> usize {
        self.fields.key_length
    }

    /// The stored key of a record.
    pub fn key<'r>(&self, record: &'r [u8]) -> &'r [u8] {
        &record[..self.fields.key_length]
    }

    /// The used chain with the numbers of its blocks. It ends early where a chain is broken.
    pub fn used_blocks(&self) -> impl Iterator<Item = (u16, Block<'a>)> {
        let blocks = self.blocks;
        let numbered = move |number| blocks.get(number).map(|block| (number, block));
        std::iter::successors(numbered(self.header.first), move |(_, block)| {
            numbered(block.next())
        })
        .take(self.header.blocks.into())
    }

    /// Where the record of a block (from 1) and a place (from 0) begins: 13 for no such block, 9 for
    /// its bad count, 13 for no such place.
    pub fn record_start(&self, block: usize, place: usize) -> Result<usize, Refusal> {
        let number = u16::try_from(block).map_err(|_| Refusal::Argument)?;
        let held = self.blocks.get(number).ok_or(Refusal::Argument)?;
        let count = held.record_count().ok_or(Refusal::Count)?;
        if place >= count {
            return Err(Refusal::Argument);
        }
        let head = self.header.header_size + (block - 1) * self.header.block_size;
        Ok(head + BLOCK_HEAD + place * self.header.record_size)
    }

    /// Rule 13 of the lookups: the table has key fields and the key has their length.
    pub fn check_key(&self, key: &[u8]) -> Result<(), Refusal> {
        if self.header.key_fields == 0 || key.len() != self.fields.key_length {
            return Err(Refusal::Argument);
        }
        Ok(())
    }
}

/// The table check: the accepted table, or the first rule that is broken. The marks tell used
/// blocks (1) from free ones (2) where the chain rules are kept.
pub fn table_check<'a>(bytes: &'a [u8], marks: &mut [u8]) -> Result<Table<'a>, Refusal> {
    let table = Table::read(bytes)?;
    let marks = marks
        .get_mut(..table.header.blocks.into())
        .ok_or(Refusal::Buffer)?;
    chain::mark_blocks(&table, marks)?;
    if !counts::add_up(&table) {
        return Err(Refusal::Count);
    }
    if table.header.key_fields > 0 && !keys::ascend(&table) {
        return Err(Refusal::Order);
    }
    Ok(table)
}
