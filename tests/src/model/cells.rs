//! The meaning of cells (document 01, "Cells"; doubles by request 02 of document 02).

use super::{Field, Kind, Part, Refusal, Table};

/// The first day that a date can be.
pub const FIRST_DAY: i32 = 36_160;
/// The last day that a date can be.
pub const LAST_DAY: i32 = 3_652_059;
/// A stored false.
pub const FALSE: u8 = 0x80;
/// A stored true.
pub const TRUE: u8 = 0x81;

/// What a cell holds.
#[derive(Clone, Copy, Debug, PartialEq)]
pub enum Cell {
    /// Nothing.
    Blank,
    /// A text, the part of the table that it is.
    Text(Part),
    /// A day number, 1 January 0001 being 1.
    Date(i32),
    /// A 16-bit number.
    Short(i16),
    /// A 32-bit number.
    Long(i32),
    /// A currency or a number.
    Double(f64),
    /// True or false.
    Logical(bool),
}

impl Field {
    /// Reads the cell of this field that begins at a place in the table.
    pub fn read(&self, table: &[u8], start: usize) -> Result<Cell, Refusal> {
        if self.kind == Kind::Blob {
            return Err(Refusal::Blob);
        }
        let stored = &table[start..start + self.width];
        if stored.iter().all(|&byte| byte == 0) {
            return Ok(Cell::Blank);
        }
        let value = match self.kind {
            Kind::Text => text_length(stored).map(|length| Cell::Text(Part { start, length })),
            Kind::Date => long(stored)
                .filter(|day| (FIRST_DAY..=LAST_DAY).contains(day))
                .map(Cell::Date),
            Kind::Short => short(stored).map(Cell::Short),
            Kind::Long => long(stored).map(Cell::Long),
            Kind::Currency | Kind::Number => double(stored).map(Cell::Double),
            Kind::Logical => logical(stored).map(Cell::Logical),
            Kind::Blob => None,
        };
        value.ok_or(Refusal::Meaningless)
    }
}

fn short(stored: &[u8]) -> Option<i16> {
    let bits = u16::from_be_bytes(stored.try_into().ok()?);
    Some((bits ^ 1 << 15) as i16)
}

fn long(stored: &[u8]) -> Option<i32> {
    let bits = u32::from_be_bytes(stored.try_into().ok()?);
    Some((bits ^ 1 << 31) as i32)
}

/// By request 02 of document 02: a top bit of 1 is cleared; with one of 0 all 64 bits are complemented.
fn double(stored: &[u8]) -> Option<f64> {
    let stored = u64::from_be_bytes(stored.try_into().ok()?);
    let bits = match stored >> 63 {
        1 => stored & !(1 << 63),
        _ => !stored,
    };
    Some(f64::from_bits(bits)).filter(|value| value.is_finite())
}

fn logical(stored: &[u8]) -> Option<bool> {
    match stored {
        [FALSE] => Some(false),
        [TRUE] => Some(true),
        _ => None,
    }
}

/// How many bytes stand before the first zero, where only zeros follow. The stored bytes are not all
/// zero here, so that no text is empty.
fn text_length(stored: &[u8]) -> Option<usize> {
    let zero = stored.iter().position(|&byte| byte == 0);
    let length = zero.unwrap_or(stored.len());
    let behind = &stored[length..];
    behind.iter().all(|&byte| byte == 0).then_some(length)
}

impl Table<'_> {
    /// The cell of a block (from 1), a place (from 0) and a field (from 1).
    pub fn cell(&self, block: usize, place: usize, field: usize) -> Result<Cell, Refusal> {
        let (field, offset) = self.fields.get(field).ok_or(Refusal::Argument)?;
        let record = self.record_start(block, place)?;
        field.read(self.bytes, record + offset)
    }

    /// The cells of the record of a block (from 1) and a place (from 0), each refused for itself.
    pub fn record(
        &self,
        block: usize,
        place: usize,
    ) -> Result<impl Iterator<Item = Result<Cell, Refusal>> + '_, Refusal> {
        let mut start = self.record_start(block, place)?;
        Ok(self.fields().map(move |field| {
            let cell = field.read(self.bytes, start);
            start += field.width;
            cell
        }))
    }
}

/// The cell of a block (from 1), a place (from 0) and a field (from 1) of a table.
pub fn cell(bytes: &[u8], block: usize, place: usize, field: usize) -> Result<Cell, Refusal> {
    Table::read(bytes)?.cell(block, place, field)
}
