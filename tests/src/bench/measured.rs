//! The measured calls, behind two functions whose names a profiler can be told.

use super::memos::MEMO_FIELD;
use super::round::{round, Asked};
use super::{Data, Task, Who};
use crate::calls::{self, expected, CELL_NUMBERS};
use crate::layout::{MOST_BLOCKS, MOST_FIELDS};
use crate::model::{self, Table};
use std::hint::black_box;

/// A task with all that is lent to it.
pub struct Measured<'a> {
    data: &'a Data,
    round: Vec<Asked<'a>>,
    next: usize,
    marks: Vec<u8>,
    numbers: Vec<u64>,
    buffer: Vec<u8>,
}

impl<'a> Measured<'a> {
    /// A task on a table, its index and its MB file.
    pub fn new(task: Task, data: &'a Data) -> Measured<'a> {
        Measured {
            data,
            round: round(task, data),
            next: 0,
            marks: vec![0; MOST_BLOCKS.into()],
            numbers: vec![0; CELL_NUMBERS * MOST_FIELDS],
            buffer: vec![0; u8::MAX.into()],
        }
    }

    /// How many calls make a whole round of the task.
    pub fn round(&self) -> usize {
        self.round.len()
    }

    /// Makes one call, the next of the round.
    pub fn call(&mut self, who: Who) -> u64 {
        self.next = (self.next + 1) % self.round.len();
        match who {
            Who::Ours => measured_ours(self),
            Who::Rust => measured_rust(self),
        }
    }

    /// The marks, the numbers and the cell that the calls have written.
    pub fn written(&self) -> (&[u8], &[u64], &[u8]) {
        (&self.marks, &self.numbers, &self.buffer)
    }
}

/// One call of the library.
#[inline(never)]
#[no_mangle]
pub extern "C" fn measured_ours(measured: &mut Measured) -> u64 {
    let Data { table, index, mb } = measured.data;
    let marks = &mut measured.marks;
    let numbers = &mut measured.numbers;
    black_box(match measured.round[measured.next] {
        Asked::TableCheck => calls::table_check(table, marks).into(),
        Asked::PairCheck => calls::pair_check(table, index, marks).into(),
        Asked::Scan(key) => calls::scan(table, key, marks),
        Asked::Walk(key) => calls::walk(table, index, key),
        Asked::Header => calls::header(table, numbers).into(),
        Asked::Field(field) => calls::field(table, field, numbers).into(),
        Asked::Cell(at, field) => {
            calls::cell(table, at.block.into(), at.place.into(), field, numbers).into()
        }
        Asked::Record(at, room) => {
            let cells = &mut numbers[..room];
            calls::record(table, at.block.into(), at.place.into(), cells).into()
        }
        Asked::Step(cursor) => {
            numbers[0] = cursor;
            calls::step(table, numbers).into()
        }
        Asked::Write(written) => calls::write(written, &mut measured.buffer).into(),
        Asked::Blob(at) => {
            let (block, place) = (at.block.into(), at.place.into());
            calls::blob(table, mb, block, place, MEMO_FIELD, numbers).into()
        }
    })
}

/// One call of the model.
#[inline(never)]
#[no_mangle]
pub extern "C" fn measured_rust(measured: &mut Measured) -> u64 {
    let Data { table, index, mb } = measured.data;
    let marks = &mut measured.marks;
    let numbers = &mut measured.numbers;
    black_box(match measured.round[measured.next] {
        Asked::TableCheck => calls::check_number(&model::table_check(table, marks)).into(),
        Asked::PairCheck => calls::check_number(&model::pair_check(table, index, marks)).into(),
        Asked::Scan(key) => calls::pack_scan(model::scan(table, key, marks)),
        Asked::Walk(key) => calls::pack_walk(model::walk(table, index, key)),
        Asked::Header => expected::header(&Table::read(table), numbers).into(),
        Asked::Field(field) => expected::field(&Table::read(table), field, numbers).into(),
        Asked::Cell(at, field) => {
            let read = Table::read(table);
            expected::cell(&read, at.block.into(), at.place.into(), field, numbers).into()
        }
        Asked::Record(at, room) => {
            let (read, cells) = (Table::read(table), &mut numbers[..room]);
            expected::record(&read, at.block.into(), at.place.into(), cells).into()
        }
        Asked::Step(cursor) => {
            let stepped = model::step(table, calls::cursor_of(cursor));
            expected::lay_cursor(stepped, &mut numbers[0]).into()
        }
        Asked::Write(written) => expected::write(written, &mut measured.buffer).into(),
        Asked::Blob(at) => {
            let (read, block, place) = (Table::read(table), at.block.into(), at.place.into());
            expected::blob(&read, mb, block, place, MEMO_FIELD, numbers).into()
        }
    })
}
