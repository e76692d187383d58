//! A table's header, rules 1 to 6 (document 01, "Header rules").

use super::Refusal;
use crate::layout::*;

/// The numbers of a header that keeps rules 1 to 6.
pub struct Header {
    /// The version, 03 to 0B.
    pub version: u8,
    /// Bytes in a record.
    pub record_size: usize,
    /// Bytes before the first block.
    pub header_size: usize,
    /// Bytes in a block.
    pub block_size: usize,
    /// Blocks in the file.
    pub blocks: u16,
    /// The first used block.
    pub first: u16,
    /// The last used block.
    pub last: u16,
    /// The first free block.
    pub first_free: u16,
    /// Number of fields.
    pub fields: usize,
    /// Number of key fields.
    pub key_fields: usize,
    /// Number of records.
    pub records: u32,
}

impl Header {
    /// Reads a header, or answers the first of rules 1 to 6 that is broken.
    pub fn read(bytes: &[u8]) -> Result<Header, Refusal> {
        if bytes.len() < LEAST_TABLE {
            return Err(Refusal::Short);
        }
        if !matches!(bytes[FILE_TYPE], KEYED | UNKEYED) {
            return Err(Refusal::Type);
        }
        let version = bytes[VERSION];
        if !(FIRST_VERSION..=LAST_VERSION).contains(&version) {
            return Err(Refusal::Version);
        }
        let start = encryption(version);
        if bytes[start..start + 4] != [0; 4] {
            return Err(Refusal::Encrypted);
        }
        let header = Header::within_limits(bytes).ok_or(Refusal::Limit)?;
        if bytes.len() != header.header_size + usize::from(header.blocks) * header.block_size {
            return Err(Refusal::Length);
        }
        Ok(header)
    }

    fn within_limits(bytes: &[u8]) -> Option<Header> {
        let header = Header {
            version: bytes[VERSION],
            record_size: word(bytes, RECORD_SIZE).into(),
            header_size: word(bytes, HEADER_SIZE).into(),
            block_size: block_size(bytes)?,
            blocks: word(bytes, BLOCKS),
            first: word(bytes, FIRST_BLOCK),
            last: word(bytes, LAST_BLOCK),
            first_free: word(bytes, FIRST_FREE),
            fields: word(bytes, FIELDS).into(),
            key_fields: word(bytes, KEY_FIELDS).into(),
            records: record_count(bytes)?,
        };
        let keyed = header.key_fields > 0;
        let good = (1..=header.block_size - BLOCK_HEAD).contains(&header.record_size)
            && header.header_size >= LEAST_TABLE
            && header.blocks <= MOST_BLOCKS
            && (1..=MOST_FIELDS).contains(&header.fields)
            && header.key_fields <= header.fields
            && (bytes[FILE_TYPE] == KEYED) == keyed
            && (!keyed || bytes[SORT] == PLAIN_ORDER);
        good.then_some(header)
    }
}

/// The block size in bytes, where it is 1 to 4 units.
pub fn block_size(bytes: &[u8]) -> Option<usize> {
    let units = bytes[BLOCK_UNITS];
    (1..=MOST_UNITS)
        .contains(&units)
        .then(|| usize::from(units) * UNIT)
}

fn record_count(bytes: &[u8]) -> Option<u32> {
    let stored = bytes[RECORDS..RECORDS + 4].try_into().ok()?;
    i32::from_le_bytes(stored).try_into().ok()
}
