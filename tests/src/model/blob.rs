//! Blobs and the MB file (document 02, request 01; layouts by source document 001).

use super::{Kind, Part, Refusal, Table};
use crate::layout::word;
use crate::mb::*;

/// Where a blob is.
#[derive(Clone, Copy, Debug, PartialEq, Eq)]
pub enum Blob {
    /// Nowhere: the cell is blank.
    Blank,
    /// In the leader, a part of the table.
    InTable(Part),
    /// In the MB file, a part of it.
    InMb(Part),
}

impl Table<'_> {
    /// The numbers of the blob fields, from 1.
    pub fn blob_fields(&self) -> Vec<usize> {
        let fields = self.fields().zip(1..);
        let blobs = fields.filter(|(field, _)| field.kind == Kind::Blob);
        blobs.map(|(_, number)| number).collect()
    }

    /// The blob of a block (from 1), a place (from 0) and a field (from 1), with the MB file lent.
    pub fn blob(
        &self,
        mb: &[u8],
        block: usize,
        place: usize,
        field: usize,
    ) -> Result<Blob, Refusal> {
        let (field, offset) = self.fields.get(field).ok_or(Refusal::Argument)?;
        if field.kind != Kind::Blob {
            return Err(Refusal::Argument);
        }
        let start = self.record_start(block, place)? + offset;
        let stored = &self.bytes[start..start + field.width];
        if stored.iter().all(|&byte| byte == 0) {
            return Ok(Blob::Blank);
        }
        let (leader, tail) = stored.split_at(field.width - TAIL);
        let length = long(tail, TAIL_LENGTH);
        match usize::try_from(length) {
            Ok(length) if length <= leader.len() => Ok(Blob::InTable(Part { start, length })),
            _ => {
                let part = part_of(mb, long(tail, 0), length);
                part.map(Blob::InMb).ok_or(Refusal::UnfitBlob)
            }
        }
    }
}

/// The part of an MB file that an offset and a length in a cell name, where both fit.
fn part_of(mb: &[u8], offset: u32, length: u32) -> Option<Part> {
    let [number, ..] = offset.to_le_bytes();
    let base = u64::from(offset) - u64::from(number);
    if base % UNIT as u64 != 0 {
        return None;
    }
    let block = block_at(mb, base)?;
    let (begin, stated) = match (number, block[0]) {
        (OWN_NUMBER, OWN) => (OWN_HEAD as u64, long(block, OWN_LENGTH).into()),
        (0..ENTRIES, SUBALLOCATED) => entry(&block[entry_start(number)..][..ENTRY])?,
        _ => return None,
    };
    let fits = stated == u64::from(length) && begin + stated <= block.len() as u64;
    fits.then_some(Part {
        start: (base + begin) as usize,
        length: length as usize,
    })
}

/// The block that begins at a base, as long as its head states, where all of it is in the file.
fn block_at(mb: &[u8], base: u64) -> Option<&[u8]> {
    let behind = mb.get(usize::try_from(base).ok()?..)?;
    let head = behind.get(..UNITS + 2)?;
    let units = usize::from(word(head, UNITS));
    behind.get(..units * UNIT).filter(|block| !block.is_empty())
}

/// Where the blob of an entry begins in its block, and how long the entry says it is.
fn entry(stored: &[u8]) -> Option<(u64, u64)> {
    let begin = u64::from(stored[0]) * CHUNK as u64;
    let chunks = u64::from(stored[ENTRY_CHUNKS]);
    let last = u64::from(stored[ENTRY_LAST]);
    let good =
        begin >= SUBALLOCATED_HEAD as u64 && chunks >= 1 && (1..=CHUNK as u64).contains(&last);
    good.then(|| (begin, (chunks - 1) * CHUNK as u64 + last))
}

/// The blob of a block (from 1), a place (from 0) and a field (from 1) of a table with its MB file.
pub fn blob(
    table: &[u8],
    mb: &[u8],
    block: usize,
    place: usize,
    field: usize,
) -> Result<Blob, Refusal> {
    Table::read(table)?.blob(mb, block, place, field)
}
