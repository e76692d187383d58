//! Blobs with one thing broken, in the cell or in the MB file.

use super::{blob_cell, bytes, mb, File};
use crate::layout::word;
use crate::mb::*;
use crate::model::{Blob, Table};
use crate::random::Random;

/// How often a cell is looked for whose blob is in the MB file.
const TRIES: usize = 6;
/// One MB file in so many is broken by a fault that knows nothing of the format, too.
const BYTES_EVERY: usize = 8;

/// A block (from 1), a place (from 0) and a field (from 1).
pub type At = (usize, usize, usize);

/// One way to break a blob. It may leave all as it is where it finds nothing to break.
pub type Fault = fn(&mut Broken, &mut Random);

/// A cell whose blob is broken, with its files.
pub struct Broken<'a> {
    /// The table.
    pub table: &'a mut File,
    /// The MB file.
    pub mb: &'a mut File,
    /// Where the ten bytes behind the leader stand in the table.
    pub tail: usize,
    /// Bytes in the leader.
    pub leader: usize,
    /// Where the blob's block begins in the MB file.
    pub base: usize,
    /// The entry's number, or FF.
    pub number: u8,
}

/// Every fault.
pub fn blob_faults() -> Vec<Fault> {
    [blob_cell::FAULTS, mb::FAULTS].concat()
}

/// Breaks a blob of a table and its MB file, and answers where its cell is.
pub fn break_blob(table: &mut File, mb: &mut File, random: &mut Random) -> Option<At> {
    let aim = random.pick(&[blob_cell::FAULTS, mb::FAULTS]);
    let fault = random.pick(aim);
    let at = break_by(fault, table, mb, random);
    if random.below(BYTES_EVERY) == 0 {
        random.pick(bytes::FAULTS)(mb, random);
    }
    at
}

/// Breaks a blob by a fault, and answers where its cell is.
pub fn break_by(fault: Fault, table: &mut File, mb: &mut File, random: &mut Random) -> Option<At> {
    let (at, tail, leader) = find(table, mb, random)?;
    let offset = long(table, tail);
    let number = offset as u8;
    let mut broken = Broken {
        tail,
        leader,
        base: (offset & !0xFF) as usize,
        number,
        table,
        mb,
    };
    fault(&mut broken, random);
    Some(at)
}

/// A blob's cell, rather one whose blob is in the MB file: where it is, where its ten bytes stand,
/// and the leader's length.
fn find(table: &[u8], mb: &[u8], random: &mut Random) -> Option<(At, usize, usize)> {
    let read = Table::read(table).ok()?;
    let fields = read.blob_fields();
    if fields.is_empty() || read.header.blocks == 0 {
        return None;
    }
    let mut found = None;
    for _ in 0..TRIES {
        let block = random.within(1..=read.header.blocks.into());
        let count = read.blocks.get(block as u16)?.record_count().unwrap_or(0);
        let (place, field) = (random.below(count.max(1)), random.pick(&fields));
        let Ok(start) = read.record_start(block, place) else {
            continue;
        };
        let placed = read.field(field).ok()?;
        let leader = placed.field.width - TAIL;
        found = Some((
            (block, place, field),
            start + placed.offset + leader,
            leader,
        ));
        if let Ok(Blob::InMb(_)) = read.blob(mb, block, place, field) {
            break;
        }
    }
    found
}

impl Broken<'_> {
    /// Whether the blob is said to be in a block of its own.
    pub fn is_own(&self) -> bool {
        self.number == OWN_NUMBER
    }

    /// Where the block's entry stands in the file, where the block is suballocated and in the file.
    pub fn entry(&self) -> Option<usize> {
        let start = self.base + entry_start(self.number);
        let inside = self.number < ENTRIES && start + ENTRY <= self.mb.len();
        inside.then_some(start)
    }

    /// The bytes of the block and of all behind it, where there is a head.
    pub fn block(&mut self) -> Option<&mut [u8]> {
        let block = self.mb.get_mut(self.base..)?;
        (block.len() >= OWN_HEAD).then_some(block)
    }

    /// The bytes that the block's head states.
    pub fn size(&mut self) -> usize {
        let units = self.block().map_or(1, |block| word(block, UNITS).into());
        units * UNIT
    }

    /// Gives the cell an offset.
    pub fn put_offset(&mut self, offset: u32) {
        put_long(self.table, self.tail, offset);
    }

    /// The length in the cell.
    pub fn length(&self) -> u32 {
        long(self.table, self.tail + TAIL_LENGTH)
    }

    /// Gives the cell a length.
    pub fn put_length(&mut self, length: u32) {
        put_long(self.table, self.tail + TAIL_LENGTH, length);
    }

    /// Lets the block or the entry state a length, which an entry can up to 4,080.
    pub fn state(&mut self, length: u32) {
        if self.is_own() {
            if let Some(block) = self.block() {
                put_long(block, OWN_LENGTH, length);
            }
        } else if let Some(entry) = self.entry() {
            let chunks = length.div_ceil(CHUNK as u32).max(1);
            self.mb[entry + ENTRY_CHUNKS] = chunks as u8;
            self.mb[entry + ENTRY_LAST] = (length + CHUNK as u32 - chunks * CHUNK as u32) as u8;
        }
    }
}
