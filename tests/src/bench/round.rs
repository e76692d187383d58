//! The calls that a task is made of, with their arguments.

use super::{Data, Task};
use crate::calls::{pack_cell, pack_cursor, Written, CELL_NUMBERS};
use crate::layout::{MOST_UNITS, UNIT};
use crate::model::{Cell, Cursor, Table};
use crate::random::Random;

/// Keys of which a walk is the average.
const WALKED_KEYS: usize = 1000;
/// Its first bytes, as many as a key has, are greater than every key of the tables.
static GREATEST: [u8; MOST_UNITS as usize * UNIT] = [0xFF; MOST_UNITS as usize * UNIT];

/// What one call is asked, the table and the lent memory apart.
#[derive(Clone, Copy, Debug)]
pub enum Asked<'a> {
    /// The table check.
    TableCheck,
    /// The pair check.
    PairCheck,
    /// The scan of a key.
    Scan(&'a [u8]),
    /// The walk of a key.
    Walk(&'a [u8]),
    /// The header.
    Header,
    /// A field.
    Field(usize),
    /// The cell of a record on which a cursor stands, and a field.
    Cell(Cursor, usize),
    /// The record on which a cursor stands, with room for so many numbers.
    Record(Cursor, usize),
    /// The step of a cursor.
    Step(u64),
    /// The writing of a value.
    Write(Written<'a>),
    /// The memo of a record on which a cursor stands.
    Blob(Cursor),
}

/// The calls of a task, each once.
pub fn round(task: Task, data: &Data) -> Vec<Asked<'_>> {
    let table = Table::read(&data.table).expect("a measured table keeps rules 1 to 7");
    let fields = 1..=table.header.fields;
    let room = CELL_NUMBERS * table.header.fields;
    match task {
        Task::TableCheck => vec![Asked::TableCheck],
        Task::PairCheck => vec![Asked::PairCheck],
        Task::ScanLast => keys(&table).last().map(Asked::Scan).into_iter().collect(),
        Task::ScanAbsent => vec![Asked::Scan(&GREATEST[..table.key_length()])],
        Task::Walk => {
            let mut random = Random::new(WALKED_KEYS as u64);
            let held: Vec<&[u8]> = keys(&table).collect();
            let any = |_| Asked::Walk(random.pick(&held));
            (0..WALKED_KEYS).map(any).collect()
        }
        Task::Header => vec![Asked::Header],
        Task::Field => fields.map(Asked::Field).collect(),
        Task::Cell => {
            let asked = records(&table).zip(fields.cycle());
            asked.map(|(at, field)| Asked::Cell(at, field)).collect()
        }
        Task::Record => records(&table).map(|at| Asked::Record(at, room)).collect(),
        Task::RecordNoRoom => records(&table).map(|at| Asked::Record(at, 0)).collect(),
        Task::Step => {
            let cursors = records(&table).map(pack_cursor);
            cursors.map(Asked::Step).collect()
        }
        Task::Write => values(&table).into_iter().map(Asked::Write).collect(),
        Task::Blob => records(&table).map(Asked::Blob).collect(),
    }
}

/// The keys in chain order.
fn keys<'a>(table: &Table<'a>) -> impl Iterator<Item = &'a [u8]> {
    let length = table.key_length();
    let records = table.used_blocks().filter_map(|(_, block)| block.records());
    records.flatten().map(move |record| &record[..length])
}

/// A cursor on each record, in chain order.
fn records<'a>(table: &Table<'a>) -> impl Iterator<Item = Cursor> + 'a {
    table
        .used_blocks()
        .zip(0..)
        .flat_map(|((number, block), moves)| {
            let count = block.record_count().unwrap_or(0) as u16;
            (0..count).map(move |place| Cursor {
                block: number,
                place,
                moves,
                ended: false,
            })
        })
}

/// The values of the first record, each with its field's type code and width.
fn values<'a>(table: &Table<'a>) -> Vec<Written<'a>> {
    let first = records(table).next();
    let cells = first.and_then(|at| table.record(at.block.into(), at.place.into()).ok());
    let cells = cells.into_iter().flatten().zip(table.fields());
    let written = cells.filter_map(|(cell, field)| {
        let cell = cell.ok()?;
        let [what, value, ..] = pack_cell(cell);
        Some(Written {
            code: field.code.into(),
            width: field.width,
            what,
            value,
            text: match cell {
                Cell::Text(text) => table.part(text),
                _ => &[],
            },
        })
    });
    written.collect()
}
