//! Where things are in a blob's cell and in an MB file (source document 001, "Blob Fields" and "The
//! MB File"). All numbers are little-endian and unsigned.

use crate::layout::word;

/// Bytes behind the leader in a cell: offset, length, modification number.
pub const TAIL: usize = 10;
/// The blob's length behind the leader, a 32-bit number. The offset is the 32-bit number before it.
pub const TAIL_LENGTH: usize = 4;
/// The modification number behind the leader, a word.
pub const TAIL_MODIFICATION: usize = 8;
/// The low byte of the offset of a blob in a block of its own.
pub const OWN_NUMBER: u8 = 0xFF;

/// Bytes in a unit of block length, of which every offset of a block is a multiple.
pub const UNIT: usize = 4096;
/// The units in a block's head, a word. The kind is the byte before it.
pub const UNITS: usize = 1;
/// The kind of the header block.
pub const HEADER: u8 = 0x00;
/// The kind of a block with one blob.
pub const OWN: u8 = 0x02;
/// The kind of a suballocated block.
pub const SUBALLOCATED: u8 = 0x03;
/// The kind of a free block.
pub const FREE: u8 = 0x04;

/// The blob's length in the head of a block of its own, a 32-bit number.
pub const OWN_LENGTH: usize = 3;
/// The modification number in the head of a block of its own, a word.
pub const OWN_MODIFICATION: usize = 7;
/// Bytes before the blob in a block of its own.
pub const OWN_HEAD: usize = 9;

/// Entries of a suballocated block, by number from 0.
pub const ENTRIES: u8 = 64;
/// Bytes before the first entry of a suballocated block.
pub const FIRST_ENTRY: usize = 12;
/// Bytes in an entry: begin, chunks, modification number (two bytes), bytes in the last chunk.
pub const ENTRY: usize = 5;
/// The number of chunks in an entry. Where the blob begins, in chunks, is the byte before it.
pub const ENTRY_CHUNKS: usize = 1;
/// The modification number in an entry, a word.
pub const ENTRY_MODIFICATION: usize = 2;
/// The bytes in the last chunk, 0 where the blob was deleted.
pub const ENTRY_LAST: usize = 4;
/// Bytes in a chunk of a suballocated block.
pub const CHUNK: usize = 16;
/// Bytes before the blobs of a suballocated block: its head and all entries.
pub const SUBALLOCATED_HEAD: usize = FIRST_ENTRY + ENTRY * ENTRIES as usize;
/// The first chunk of a suballocated block that is behind its head and all entries.
pub const FIRST_CHUNK: u8 = SUBALLOCATED_HEAD.div_ceil(CHUNK) as u8;

/// The 32-bit number at an offset.
pub fn long(bytes: &[u8], offset: usize) -> u32 {
    u32::from(word(bytes, offset)) | u32::from(word(bytes, offset + 2)) << 16
}

/// Stores a 32-bit number at an offset.
pub fn put_long(bytes: &mut [u8], offset: usize, value: u32) {
    bytes[offset..offset + 4].copy_from_slice(&value.to_le_bytes());
}

/// Where an entry stands in a suballocated block.
pub fn entry_start(number: u8) -> usize {
    FIRST_ENTRY + ENTRY * usize::from(number)
}
