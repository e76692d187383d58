//! The calls in question, those of the library and those of the model.

use crate::kind::Kind;
use crate::value::Value;
use brittomaz_tests::calls::{self, cursor_of, expected, Written, CELL_NUMBERS, RECORD};
use brittomaz_tests::model::{Refusal, Table};

/// The calls of one side.
pub struct Side {
    pub name: &'static str,
    write: fn(Written, &mut [u8]) -> u32,
    cell: fn(&[u8], usize, usize, usize, &mut [u64]) -> u32,
    start: fn(&[u8], &mut [u64]) -> u32,
    step: fn(&[u8], &mut [u64]) -> u32,
}

pub const SIDES: [Side; 2] = [
    Side {
        name: "library",
        write: calls::write,
        cell: calls::cell,
        start: calls::start,
        step: calls::step,
    },
    Side {
        name: "model",
        write: expected::write,
        cell: |table, block, place, field, cell| {
            expected::cell(&Table::read(table), block, place, field, cell)
        },
        start: |table, cursor| expected::start(table, &Table::read(table), cursor),
        step: |table, cursor| expected::step(table, &Table::read(table), cursor),
    },
];

impl Side {
    /// The bytes that a value is written as; none where it has no stored form or is of no kind.
    pub fn written(&self, kind: &Kind, what: u64, value: u64) -> Option<Vec<u8>> {
        let written = Written {
            code: kind.code.into(),
            width: kind.width.into(),
            what,
            value,
            text: &[],
        };
        let mut stored = kind.bytes(0);
        let answer = (self.write)(written, &mut stored);
        let refusals =
            [Refusal::Meaningless, Refusal::Argument].map(|refusal| refusal.number().into());
        assert!(
            answer == 0 || refusals.contains(&answer),
            "{}: {answer}",
            self.name
        );
        (answer == 0).then_some(stored)
    }

    /// What the first field of a record is read as; none where its cell has no meaning.
    pub fn first_cell(&self, table: &[u8], block: u16, place: u16) -> Option<Value> {
        let mut cell = [0; CELL_NUMBERS];
        let answer = (self.cell)(table, block.into(), place.into(), 1, &mut cell);
        if answer == Refusal::Meaningless.number().into() {
            return None;
        }
        assert_eq!(answer, 0, "{}: block {block}, place {place}", self.name);
        Some(Value::of(cell[0], cell[1]))
    }

    /// The first fields of all records in chain order.
    pub fn first_cells(&self, table: &[u8]) -> Vec<Option<Value>> {
        let mut cells = Vec::new();
        let mut cursor = [0];
        let mut answer = (self.start)(table, &mut cursor);
        while answer == RECORD {
            let stands = cursor_of(cursor[0]);
            cells.push(self.first_cell(table, stands.block, stands.place));
            answer = (self.step)(table, &mut cursor);
        }
        assert_eq!(answer, 0, "{}", self.name);
        cells
    }
}
