//! The type codes of fields (document 01, "Field rules").

use std::ops::RangeInclusive;

/// Text.
pub const TEXT: u8 = 0x01;
/// A date.
pub const DATE: u8 = 0x02;
/// A 16-bit number.
pub const SHORT: u8 = 0x03;
/// A 32-bit number.
pub const LONG: u8 = 0x04;
/// A double that is money.
pub const CURRENCY: u8 = 0x05;
/// A double.
pub const NUMBER: u8 = 0x06;
/// True or false.
pub const LOGICAL: u8 = 0x09;
/// A memo, the blob with a width of its own.
pub const MEMO: u8 = 0x0C;
/// The first of the other blobs.
pub const FIRST_BLOB: u8 = 0x0D;
/// The last of the other blobs.
pub const LAST_BLOB: u8 = 0x10;
/// The codes of blobs.
pub const BLOBS: RangeInclusive<u8> = MEMO..=LAST_BLOB;
/// Every code that a key field may have.
pub const OF_KEYS: [u8; 7] = [TEXT, DATE, SHORT, LONG, CURRENCY, NUMBER, LOGICAL];
/// Every code.
pub const ALL: [u8; 12] = [
    TEXT, DATE, SHORT, LONG, CURRENCY, NUMBER, LOGICAL, MEMO, FIRST_BLOB, 0x0E, 0x0F, LAST_BLOB,
];
