//! The header, the fields, the cells and the records of a table, and the writing of a cell.

use super::lent::{lent, lent_mut};

extern "C" {
    fn paradox_header(
        table: *const u8,
        table_len: usize,
        numbers: *mut u64,
        numbers_len: usize,
    ) -> u32;
    fn paradox_field(
        table: *const u8,
        table_len: usize,
        field: usize,
        numbers: *mut u64,
        numbers_len: usize,
    ) -> u32;
    fn paradox_cell(
        table: *const u8,
        table_len: usize,
        block: usize,
        place: usize,
        field: usize,
        cell: *mut u64,
        cell_len: usize,
    ) -> u32;
    fn paradox_record(
        table: *const u8,
        table_len: usize,
        block: usize,
        place: usize,
        cells: *mut u64,
        cells_len: usize,
    ) -> u32;
    fn paradox_write(
        code: u64,
        width: usize,
        what: u64,
        value: u64,
        text: *const u8,
        text_len: usize,
        buffer: *mut u8,
        buffer_len: usize,
    ) -> u32;
}

/// A value as the C call takes it, for a type code and a width.
#[derive(Clone, Copy, Debug)]
pub struct Written<'a> {
    /// The type code.
    pub code: u64,
    /// The width.
    pub width: usize,
    /// What the value is.
    pub what: u64,
    /// The value, but for a text.
    pub value: u64,
    /// The text's bytes.
    pub text: &'a [u8],
}

/// The library's numbers of a header.
pub fn header(table: &[u8], numbers: &mut [u64]) -> u32 {
    // SAFETY: each pointer is lent with its own length.
    unsafe { paradox_header(lent(table), table.len(), lent_mut(numbers), numbers.len()) }
}

/// The library's numbers of a field.
pub fn field(table: &[u8], field: usize, numbers: &mut [u64]) -> u32 {
    let (length, room) = (table.len(), numbers.len());
    // SAFETY: each pointer is lent with its own length.
    unsafe { paradox_field(lent(table), length, field, lent_mut(numbers), room) }
}

/// The library's cell of a block, a place and a field.
pub fn cell(table: &[u8], block: usize, place: usize, field: usize, cell: &mut [u64]) -> u32 {
    // SAFETY: each pointer is lent with its own length.
    unsafe {
        paradox_cell(
            lent(table),
            table.len(),
            block,
            place,
            field,
            lent_mut(cell),
            cell.len(),
        )
    }
}

/// The library's cells of the record of a block and a place.
pub fn record(table: &[u8], block: usize, place: usize, cells: &mut [u64]) -> u32 {
    let (length, room) = (table.len(), cells.len());
    // SAFETY: each pointer is lent with its own length.
    unsafe { paradox_record(lent(table), length, block, place, lent_mut(cells), room) }
}

/// The library's writing of a value.
pub fn write(written: Written, buffer: &mut [u8]) -> u32 {
    // SAFETY: each pointer is lent with its own length.
    unsafe {
        paradox_write(
            written.code,
            written.width,
            written.what,
            written.value,
            lent(written.text),
            written.text.len(),
            lent_mut(buffer),
            buffer.len(),
        )
    }
}
