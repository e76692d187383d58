//! The header, fields, cells and records of a case's table, asked for beside the model.

use super::arguments::{any_field, any_record};
use super::difference::Run;
use super::question::{Memory, Question, Subject};
use super::tally::Call;
use crate::calls::{CELL_NUMBERS, REFUSED};

/// Questions of a case whose table can be read; of another, one of each.
const FIELDS: usize = 4;
const CELLS: usize = 16;
const RECORDS: usize = 4;
/// Cells of a record that are asked for by themselves.
const CELLS_OF_RECORD: usize = 2;

impl Memory {
    /// Asks for the header, and for some fields, cells and records.
    pub fn ask_parts(&mut self, run: &mut Run, subject: &Subject) {
        self.ask_any(run, subject, Question::Header);
        let many = |count| if subject.read.is_ok() { count } else { 1 };
        for _ in 0..many(FIELDS) {
            let field = any_field(&subject.read, &mut run.random);
            self.ask_any(run, subject, Question::Field { field });
        }
        for _ in 0..many(CELLS) {
            let field = any_field(&subject.read, &mut run.random);
            let (block, place) = any_record(&subject.read, &mut run.random);
            self.ask_cell(run, subject, block, place, field);
        }
        for _ in 0..many(RECORDS) {
            let (block, place) = any_record(&subject.read, &mut run.random);
            self.ask_record(run, subject, block, place);
        }
    }

    /// Asks for a cell. One that has a value is written again.
    fn ask_cell(
        &mut self,
        run: &mut Run,
        subject: &Subject,
        block: usize,
        place: usize,
        field: usize,
    ) {
        let question = Question::Cell {
            block,
            place,
            field,
        };
        if self.ask_any(run, subject, question) == 0 {
            self.write_again(run, subject, (block, place, field));
        }
    }

    /// Asks for a record, then for some of its cells, which are the record's.
    pub fn ask_record(&mut self, run: &mut Run, subject: &Subject, block: usize, place: usize) {
        let question = Question::Record { block, place };
        if self.ask_any(run, subject, question) != 0 {
            return;
        }
        let cells = self.numbers.numbers().to_vec();
        let Ok(table) = &subject.read else { return };
        for _ in 0..CELLS_OF_RECORD {
            let field = run.random.within(1..=table.header.fields);
            let question = Question::Cell {
                block,
                place,
                field,
            };
            let before = [0; CELL_NUMBERS].map(|_: u64| run.random.bits());
            let answer = self.ask(run, subject, question, &before);
            let expected = match answer {
                0 => self.numbers.numbers(),
                refusal => &[REFUSED, refusal.into(), 0, 0],
            };
            let start = CELL_NUMBERS * (field - 1);
            if cells.get(start..start + CELL_NUMBERS) != Some(expected) {
                let what = format!("{question:?}: the record has another cell");
                run.differ(Call::Record, what, &[("asked", subject.bytes)]);
            }
        }
    }
}
