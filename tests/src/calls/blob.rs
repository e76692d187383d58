//! The blob of a cell, in the table or in its MB file.

use super::lent::{lent, lent_mut};

extern "C" {
    fn paradox_blob(
        table: *const u8,
        table_len: usize,
        mb: *const u8,
        mb_len: usize,
        block: usize,
        place: usize,
        field: usize,
        part: *mut u64,
        part_len: usize,
    ) -> u32;
}

/// The library's blob of a block, a place and a field.
pub fn blob(
    table: &[u8],
    mb: &[u8],
    block: usize,
    place: usize,
    field: usize,
    part: &mut [u64],
) -> u32 {
    // SAFETY: each pointer is lent with its own length.
    unsafe {
        paradox_blob(
            lent(table),
            table.len(),
            lent(mb),
            mb.len(),
            block,
            place,
            field,
            lent_mut(part),
            part.len(),
        )
    }
}
