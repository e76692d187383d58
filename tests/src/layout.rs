//! Where things are in a table and in an index (document 01, "The table" and "Index file").

/// Record size, a word.
pub const RECORD_SIZE: usize = 0x00;
/// Header size, a word.
pub const HEADER_SIZE: usize = 0x02;
/// The file type, a byte.
pub const FILE_TYPE: usize = 0x04;
/// Block size in units of 1,024 bytes.
pub const BLOCK_UNITS: usize = 0x05;
/// Record count, a signed 32-bit number.
pub const RECORDS: usize = 0x06;
/// Blocks in file, a word.
pub const BLOCKS: usize = 0x0C;
/// First block of the used chain, a word.
pub const FIRST_BLOCK: usize = 0x0E;
/// Last block of the used chain, a word.
pub const LAST_BLOCK: usize = 0x10;
/// An index's root block, a word.
pub const ROOT: usize = 0x1E;
/// An index's levels, a byte.
pub const LEVELS: usize = 0x20;
/// Number of fields, a word.
pub const FIELDS: usize = 0x21;
/// Number of key fields, a word.
pub const KEY_FIELDS: usize = 0x23;
/// The four encryption bytes of versions 03 and 04.
pub const EARLY_ENCRYPTION: usize = 0x25;
/// The sort byte.
pub const SORT: usize = 0x29;
/// The version byte.
pub const VERSION: usize = 0x39;
/// First block of the free chain, a word.
pub const FIRST_FREE: usize = 0x4D;
/// The four encryption bytes of versions 05 to 0B.
pub const LATE_ENCRYPTION: usize = 0x5C;
/// Start of the field area of versions 03 and 04.
pub const EARLY_FIELD_AREA: usize = 0x58;
/// Start of the field area of versions 05 to 0B.
pub const LATE_FIELD_AREA: usize = 0x78;

/// The file type of a table with key fields.
pub const KEYED: u8 = 0;
/// The file type of a table without key fields.
pub const UNKEYED: u8 = 2;
/// The file type of a primary index.
pub const PRIMARY_INDEX: u8 = 1;
/// The sort byte of plain byte order.
pub const PLAIN_ORDER: u8 = 0;
/// The bit that is complemented in an index's numbers.
pub const COMPLEMENT: u16 = 0x8000;
/// The fewest bytes of a table, and of its header.
pub const LEAST_TABLE: usize = 120;
/// The fewest bytes of an index, and of its header.
pub const LEAST_INDEX: usize = 88;
/// The lowest version.
pub const FIRST_VERSION: u8 = 0x03;
/// The highest version.
pub const LAST_VERSION: u8 = 0x0B;
/// The last version with the early field area and encryption bytes.
pub const LAST_EARLY_VERSION: u8 = 0x04;
/// Bytes in a unit of block size.
pub const UNIT: usize = 1024;
/// Most units in a block.
pub const MOST_UNITS: u8 = 4;
/// Most blocks in a file.
pub const MOST_BLOCKS: u16 = 32_767;
/// Most fields in a table.
pub const MOST_FIELDS: usize = 255;
/// Most bytes in a field name, its ending zero apart.
pub const MOST_NAME: usize = 25;
/// Most levels in an index.
pub const MOST_LEVELS: u8 = 8;
/// Bytes in a block's head.
pub const BLOCK_HEAD: usize = 6;
/// The previous block's number in a block's head.
pub const PREVIOUS: usize = 2;
/// The offset of the last record in a block's head.
pub const LAST_RECORD: usize = 4;
/// Bytes behind the key in an index entry.
pub const ENTRY_TAIL: usize = 6;
/// Most bytes the lister takes.
pub const MOST_LISTED: usize = 65_536;

/// The little-endian word at an offset.
pub fn word(bytes: &[u8], offset: usize) -> u16 {
    u16::from_le_bytes([bytes[offset], bytes[offset + 1]])
}

/// Stores a little-endian word at an offset.
pub fn put_word(bytes: &mut [u8], offset: usize, value: u16) {
    bytes[offset..offset + 2].copy_from_slice(&value.to_le_bytes());
}

/// Start of the field area in a version.
pub fn field_area(version: u8) -> usize {
    if version <= LAST_EARLY_VERSION {
        EARLY_FIELD_AREA
    } else {
        LATE_FIELD_AREA
    }
}

/// Start of the encryption bytes in a version.
pub fn encryption(version: u8) -> usize {
    if version <= LAST_EARLY_VERSION {
        EARLY_ENCRYPTION
    } else {
        LATE_ENCRYPTION
    }
}

/// Start of the names of a table with this many fields.
pub fn names(version: u8, fields: usize) -> usize {
    field_area(version) + 6 * fields + 83
}
