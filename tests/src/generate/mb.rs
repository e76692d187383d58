//! MB files, put together block by block.

use crate::layout::put_word;
use crate::mb::*;

/// The modification count in the header block, a word.
const MODIFICATIONS: usize = 3;
/// What source document 001 guesses of the header block: places and words.
const GUESSED: [(usize, u16); 4] = [
    (0x0B, UNIT as u16),
    (0x0D, UNIT as u16),
    (0x11, ENTRIES as u16),
    (0x13, 0x0800),
];
/// The place of the chunk size in the header block, a byte.
const CHUNK_SIZE: usize = 0x10;

/// A blob that an MB file holds, as its cell names it.
#[derive(Clone, Copy, Debug)]
pub struct Stored {
    /// Where its block begins, with the low byte FF or the entry's number.
    pub offset: u32,
    /// Its bytes.
    pub length: u32,
    /// Its modification number.
    pub modification: u16,
}

impl Stored {
    /// The cell of the blob: a leader, the three numbers.
    pub fn cell(&self, leader: &[u8]) -> Vec<u8> {
        let mut cell = leader.to_vec();
        cell.extend(self.offset.to_le_bytes());
        cell.extend(self.length.to_le_bytes());
        cell.extend(self.modification.to_le_bytes());
        cell
    }
}

/// An entry of a suballocated block: its number and the chunk where its blob begins.
#[derive(Clone, Copy, Debug)]
pub struct Entry {
    /// The number, 0 to 63.
    pub number: u8,
    /// Where the blob begins, in chunks from the block's first byte.
    pub begin: u8,
    /// The modification number.
    pub modification: u16,
}

/// An MB file to which blocks are added.
#[derive(Clone, Default)]
pub struct MbFile {
    /// The bytes so far.
    pub bytes: Vec<u8>,
}

impl MbFile {
    /// A file of a header block.
    pub fn new(modifications: u16) -> MbFile {
        let mut file = MbFile::default();
        file.add_block(HEADER, 1);
        put_word(&mut file.bytes, MODIFICATIONS, modifications);
        for (place, value) in GUESSED {
            put_word(&mut file.bytes, place, value);
        }
        file.bytes[CHUNK_SIZE] = CHUNK as u8;
        file
    }

    /// Adds a block of zeros behind its kind and units, and answers where it begins.
    pub fn add_block(&mut self, kind: u8, units: u16) -> usize {
        let base = self.bytes.len();
        self.bytes.resize(base + usize::from(units) * UNIT, 0);
        self.bytes[base] = kind;
        put_word(&mut self.bytes, base + UNITS, units);
        base
    }

    /// Adds a blob in a block of its own, which has some more units than it needs.
    pub fn add_own(&mut self, blob: &[u8], more: u16, modification: u16) -> Stored {
        let units = (OWN_HEAD + blob.len()).div_ceil(UNIT) as u16 + more;
        let base = self.add_block(OWN, units);
        let block = &mut self.bytes[base..];
        put_long(block, OWN_LENGTH, blob.len() as u32);
        put_word(block, OWN_MODIFICATION, modification);
        block[OWN_HEAD..OWN_HEAD + blob.len()].copy_from_slice(blob);
        stored(base, OWN_NUMBER, blob, modification)
    }

    /// Puts a blob of 1 to 4,080 bytes into a suballocated block that begins at a place.
    pub fn put_entry(&mut self, base: usize, entry: Entry, blob: &[u8]) -> Stored {
        let chunks = blob.len().div_ceil(CHUNK);
        let last = blob.len() - chunks.saturating_sub(1) * CHUNK;
        let block = &mut self.bytes[base..];
        let start = entry_start(entry.number);
        block[start] = entry.begin;
        block[start + ENTRY_CHUNKS] = chunks as u8;
        put_word(block, start + ENTRY_MODIFICATION, entry.modification);
        block[start + ENTRY_LAST] = last as u8;
        let begin = usize::from(entry.begin) * CHUNK;
        block[begin..begin + blob.len()].copy_from_slice(blob);
        stored(base, entry.number, blob, entry.modification)
    }
}

fn stored(base: usize, number: u8, blob: &[u8], modification: u16) -> Stored {
    Stored {
        offset: base as u32 | u32::from(number),
        length: blob.len() as u32,
        modification,
    }
}
