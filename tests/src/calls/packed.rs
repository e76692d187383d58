//! What the model answers, as numbers: a header, a field, a cell, a blob, a value, a cursor.

use super::Written;
use crate::layout::{field_area, names};
use crate::model::{Blob, Cell, Cursor, Kind, PlacedField, Refusal, Table, Value};

/// How many numbers a header has.
pub const HEADER_NUMBERS: usize = 14;
/// How many numbers a field has.
pub const FIELD_NUMBERS: usize = 6;
/// How many numbers a cell has.
pub const CELL_NUMBERS: usize = 4;
/// How many numbers a part of a file has.
pub const PART_NUMBERS: usize = 2;

/// The answer of a start or a step where a record came.
pub const RECORD: u32 = 1 << 8;

/// What a cell of a record is that was refused.
pub const REFUSED: u64 = 0;
/// A blank.
pub const BLANK: u64 = 1;
/// A 16-bit number.
pub const SHORT: u64 = 2;
/// A 32-bit number.
pub const LONG: u64 = 3;
/// A date.
pub const DATE: u64 = 4;
/// A currency or a number.
pub const NUMBER: u64 = 5;
/// True or false.
pub const LOGICAL: u64 = 6;
/// A text.
pub const TEXT: u64 = 7;
/// A memo or another blob, the kind of a field only.
pub const BLOB: u64 = 8;

/// The answer for a blob that is blank.
pub const IN_NEITHER: u32 = 0;
/// The answer for a blob in the leader.
pub const IN_TABLE: u32 = 1 << 8;
/// The answer for a blob in the MB file.
pub const IN_MB: u32 = 2 << 8;

/// The numbers of a header.
pub fn pack_header(table: &Table) -> [u64; HEADER_NUMBERS] {
    let header = &table.header;
    [
        header.version.into(),
        header.header_size as u64,
        header.block_size as u64,
        header.blocks.into(),
        header.record_size as u64,
        header.records.into(),
        header.first.into(),
        header.last.into(),
        header.first_free.into(),
        header.fields as u64,
        header.key_fields as u64,
        table.key_length() as u64,
        field_area(header.version) as u64,
        names(header.version, header.fields) as u64,
    ]
}

/// The numbers of a field.
pub fn pack_field(placed: &PlacedField) -> [u64; FIELD_NUMBERS] {
    [
        placed.field.code.into(),
        kind_number(placed.field.kind),
        placed.field.width as u64,
        placed.offset as u64,
        placed.name.start as u64,
        placed.name.length as u64,
    ]
}

/// The number of a kind: what its cells are.
pub fn kind_number(kind: Kind) -> u64 {
    match kind {
        Kind::Text => TEXT,
        Kind::Date => DATE,
        Kind::Short => SHORT,
        Kind::Long => LONG,
        Kind::Currency | Kind::Number => NUMBER,
        Kind::Logical => LOGICAL,
        Kind::Blob => BLOB,
    }
}

/// The numbers of a cell.
pub fn pack_cell(cell: Cell) -> [u64; CELL_NUMBERS] {
    match cell {
        Cell::Blank => [BLANK, 0, 0, 0],
        Cell::Short(value) => [SHORT, i64::from(value) as u64, 0, 0],
        Cell::Long(value) => [LONG, i64::from(value) as u64, 0, 0],
        Cell::Date(day) => [DATE, day as u64, 0, 0],
        Cell::Double(value) => [NUMBER, value.to_bits(), 0, 0],
        Cell::Logical(value) => [LOGICAL, value.into(), 0, 0],
        Cell::Text(text) => [TEXT, text.start as u64, text.length as u64, 0],
    }
}

/// The numbers of a record's cell, which may be refused for itself.
pub fn pack_record_cell(cell: Result<Cell, Refusal>) -> [u64; CELL_NUMBERS] {
    let refused = |refusal: Refusal| [REFUSED, refusal.number().into(), 0, 0];
    cell.map_or_else(refused, pack_cell)
}

/// The answer for a blob, and the numbers of the part that it is.
pub fn pack_blob(blob: Blob) -> (u32, [u64; PART_NUMBERS]) {
    let (file, part) = match blob {
        Blob::Blank => return (IN_NEITHER, [0; PART_NUMBERS]),
        Blob::InTable(part) => (IN_TABLE, part),
        Blob::InMb(part) => (IN_MB, part),
    };
    (file, [part.start as u64, part.length as u64])
}

/// The value that is to be written; none where it is of no kind.
pub fn value_of(written: Written) -> Option<Value> {
    let (value, signed) = (written.value, written.value as i64);
    match written.what {
        BLANK => Some(Value::Blank),
        SHORT => signed.try_into().ok().map(Value::Short),
        LONG => signed.try_into().ok().map(Value::Long),
        DATE => value.try_into().ok().map(Value::Date),
        NUMBER => Some(Value::Double(f64::from_bits(value))),
        LOGICAL if value <= 1 => Some(Value::Logical(value == 1)),
        TEXT => Some(Value::Text(written.text)),
        _ => None,
    }
}

/// A cursor as one number.
pub fn pack_cursor(cursor: Cursor) -> u64 {
    let stands = u64::from(!cursor.ended) << 8;
    let moves = u64::from(cursor.moves) << 48;
    moves | u64::from(cursor.place) << 32 | u64::from(cursor.block) << 16 | stands
}

/// The cursor that a number is.
pub fn cursor_of(packed: u64) -> Cursor {
    Cursor {
        block: (packed >> 16) as u16,
        place: (packed >> 32) as u16,
        moves: (packed >> 48) as u16,
        ended: packed >> 8 & 0xFF == 0,
    }
}
