//! What the calls that are lent numbers answer, and what the numbers are afterwards, by the model.

use super::packed::*;
use super::{check_number, Written};
use crate::model::{self, Refusal, Stepped, Table};

/// A table as the model has read it, or the first of rules 1 to 7 that is broken.
pub type Read<'a> = Result<Table<'a>, Refusal>;

/// The answer of `paradox_header`.
pub fn header(read: &Read, numbers: &mut [u64]) -> u32 {
    lay(
        read,
        numbers,
        |_| HEADER_NUMBERS,
        |table, numbers| {
            numbers.copy_from_slice(&pack_header(table));
            Ok(())
        },
    )
}

/// The answer of `paradox_field`.
pub fn field(read: &Read, field: usize, numbers: &mut [u64]) -> u32 {
    lay(
        read,
        numbers,
        |_| FIELD_NUMBERS,
        |table, numbers| {
            numbers.copy_from_slice(&pack_field(&table.field(field)?));
            Ok(())
        },
    )
}

/// The answer of `paradox_cell`.
pub fn cell(read: &Read, block: usize, place: usize, field: usize, cell: &mut [u64]) -> u32 {
    lay(
        read,
        cell,
        |_| CELL_NUMBERS,
        |table, numbers| {
            numbers.copy_from_slice(&pack_cell(table.cell(block, place, field)?));
            Ok(())
        },
    )
}

/// The answer of `paradox_record`.
pub fn record(read: &Read, block: usize, place: usize, cells: &mut [u64]) -> u32 {
    let length = |table: &Table| CELL_NUMBERS * table.header.fields;
    lay(read, cells, length, |table, numbers| {
        let numbers = numbers.chunks_exact_mut(CELL_NUMBERS);
        for (numbers, cell) in numbers.zip(table.record(block, place)?) {
            numbers.copy_from_slice(&pack_record_cell(cell));
        }
        Ok(())
    })
}

/// The answer of `paradox_blob`.
pub fn blob(
    read: &Read,
    mb: &[u8],
    block: usize,
    place: usize,
    field: usize,
    part: &mut [u64],
) -> u32 {
    let mut file = IN_NEITHER;
    let refusal = lay(
        read,
        part,
        |_| PART_NUMBERS,
        |table, numbers| {
            let (held, part) = pack_blob(table.blob(mb, block, place, field)?);
            numbers.copy_from_slice(&part);
            file = held;
            Ok(())
        },
    );
    file | refusal
}

/// Lays an answer into the first of the lent numbers, as many as it has. The table's own refusals
/// come first, then that of a buffer which is too short, then those of the question. A refusal makes
/// every number 0.
fn lay(
    read: &Read,
    numbers: &mut [u64],
    length: impl Fn(&Table) -> usize,
    ask: impl FnOnce(&Table, &mut [u64]) -> Result<(), Refusal>,
) -> u32 {
    let answer = match read {
        Err(refusal) => Err(*refusal),
        Ok(table) => match numbers.get_mut(..length(table)) {
            None => Err(Refusal::Buffer),
            Some(numbers) => ask(table, numbers),
        },
    };
    if answer.is_err() {
        numbers.fill(0);
    }
    check_number(&answer)
}

/// The answer of `paradox_start`.
pub fn start(table: &[u8], read: &Read, cursor: &mut [u64]) -> u32 {
    let Some(first) = cursor.first_mut() else {
        return no_number(read);
    };
    match model::start(table) {
        Stepped::Refused(refusal, _) => {
            cursor.fill(0);
            refusal.number().into()
        }
        other => lay_cursor(other, first),
    }
}

/// The answer of `paradox_step`.
pub fn step(table: &[u8], read: &Read, cursor: &mut [u64]) -> u32 {
    let Some(first) = cursor.first_mut() else {
        return no_number(read);
    };
    lay_cursor(model::step(table, cursor_of(*first)), first)
}

/// The answer where no number is lent for a cursor.
fn no_number(read: &Read) -> u32 {
    let refusal = read.as_ref().err().copied();
    refusal.unwrap_or(Refusal::Buffer).number().into()
}

/// Lays a cursor into its number, which stays as it was with a refusal.
pub fn lay_cursor(stepped: Stepped, number: &mut u64) -> u32 {
    match stepped {
        Stepped::Record(cursor) => {
            *number = pack_cursor(cursor);
            RECORD
        }
        Stepped::End(cursor) => {
            *number = pack_cursor(cursor);
            0
        }
        Stepped::Refused(refusal, _) => refusal.number().into(),
    }
}

/// The answer of `paradox_write`.
pub fn write(written: Written, buffer: &mut [u8]) -> u32 {
    let answer = model::write(written.code, written.width, value_of(written), buffer);
    check_number(&answer)
}
