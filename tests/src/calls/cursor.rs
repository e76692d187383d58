//! The cursor: start and step.

use super::lent::{lent, lent_mut};

extern "C" {
    fn paradox_start(
        table: *const u8,
        table_len: usize,
        cursor: *mut u64,
        cursor_len: usize,
    ) -> u32;
    fn paradox_step(table: *const u8, table_len: usize, cursor: *mut u64, cursor_len: usize)
        -> u32;
}

/// The library's start.
pub fn start(table: &[u8], cursor: &mut [u64]) -> u32 {
    // SAFETY: each pointer is lent with its own length.
    unsafe { paradox_start(lent(table), table.len(), lent_mut(cursor), cursor.len()) }
}

/// The library's step.
pub fn step(table: &[u8], cursor: &mut [u64]) -> u32 {
    // SAFETY: each pointer is lent with its own length.
    unsafe { paradox_step(lent(table), table.len(), lent_mut(cursor), cursor.len()) }
}
