//! The table check, the pair check and the lookups, and the packed form of their answers.

use super::lent::{lent, lent_mut};
use crate::model::{Place, Refusal, Walked};

extern "C" {
    fn paradox_table_check(
        table: *const u8,
        table_len: usize,
        marks: *mut u8,
        marks_len: usize,
    ) -> u32;
    /// The call itself, for a test that lends less memory than it says.
    pub fn paradox_pair_check(
        table: *const u8,
        table_len: usize,
        index: *const u8,
        index_len: usize,
        marks: *mut u8,
        marks_len: usize,
    ) -> u32;
    fn paradox_scan(
        table: *const u8,
        table_len: usize,
        key: *const u8,
        key_len: usize,
        marks: *mut u8,
        marks_len: usize,
    ) -> u64;
    fn paradox_walk(
        table: *const u8,
        table_len: usize,
        index: *const u8,
        index_len: usize,
        key: *const u8,
        key_len: usize,
    ) -> u64;
}

/// The library's table check.
pub fn table_check(table: &[u8], marks: &mut [u8]) -> u32 {
    // SAFETY: each pointer is lent with its own length.
    unsafe { paradox_table_check(lent(table), table.len(), lent_mut(marks), marks.len()) }
}

/// The library's pair check.
pub fn pair_check(table: &[u8], index: &[u8], marks: &mut [u8]) -> u32 {
    // SAFETY: each pointer is lent with its own length.
    unsafe {
        paradox_pair_check(
            lent(table),
            table.len(),
            lent(index),
            index.len(),
            lent_mut(marks),
            marks.len(),
        )
    }
}

/// The library's scan, its answer packed.
pub fn scan(table: &[u8], key: &[u8], marks: &mut [u8]) -> u64 {
    // SAFETY: each pointer is lent with its own length.
    unsafe {
        paradox_scan(
            lent(table),
            table.len(),
            lent(key),
            key.len(),
            lent_mut(marks),
            marks.len(),
        )
    }
}

/// The library's walk, its answer packed.
pub fn walk(table: &[u8], index: &[u8], key: &[u8]) -> u64 {
    // SAFETY: each pointer is lent with its own length.
    unsafe {
        paradox_walk(
            lent(table),
            table.len(),
            lent(index),
            index.len(),
            lent(key),
            key.len(),
        )
    }
}

/// The number that a check answers.
pub fn check_number<T>(answer: &Result<T, Refusal>) -> u32 {
    match answer {
        Ok(_) => 0,
        Err(refusal) => refusal.number().into(),
    }
}

/// The packed form of a scan's answer.
pub fn pack_scan(answer: Result<Option<Place>, Refusal>) -> u64 {
    pack_walk(answer.map(|found| Walked {
        found,
        index_blocks: 0,
    }))
}

/// The packed form of a walk's answer.
pub fn pack_walk(answer: Result<Walked, Refusal>) -> u64 {
    match answer {
        Err(refusal) => refusal.number().into(),
        Ok(walked) => {
            let read = u64::from(walked.index_blocks) << 48;
            walked.found.map_or(read, |found| {
                read | u64::from(found.place) << 32 | u64::from(found.block) << 16 | 1 << 8
            })
        }
    }
}

/// The refusal number in a packed answer.
pub fn refusal_of(packed: u64) -> u32 {
    (packed & 0xFF) as u32
}

/// A packed answer without the number of index blocks: refusal, found, block and place.
pub fn place_of(packed: u64) -> u64 {
    packed & 0x0000_FFFF_FFFF_FFFF
}

/// Whether a packed answer says that the key was found.
pub fn is_found(packed: u64) -> bool {
    packed >> 8 & 0xFF == 1
}
