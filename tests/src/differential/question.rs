//! The calls that are lent a table and numbers, as questions that the library and the model answer.

use super::difference::Run;
use super::tally::Call;
use crate::calls::expected::{self, Read};
use crate::calls::{self, CELL_NUMBERS, FIELD_NUMBERS, HEADER_NUMBERS, PART_NUMBERS};
use crate::fence::Fence;
use crate::model::Table;
use crate::random::Random;

/// Fields for which numbers are lent where the table cannot be read.
const SOME_FIELDS: usize = 3;
/// Numbers that may be lent beyond those of an answer.
const MOST_BEYOND: usize = 20;

/// A call with its arguments, the table and the lent numbers apart.
#[derive(Clone, Copy, Debug, PartialEq, Eq)]
pub enum Question {
    /// The numbers of the header.
    Header,
    /// The numbers of a field.
    Field { field: usize },
    /// A cell.
    Cell {
        block: usize,
        place: usize,
        field: usize,
    },
    /// A blob.
    Blob {
        block: usize,
        place: usize,
        field: usize,
    },
    /// The cells of a record.
    Record { block: usize, place: usize },
    /// A cursor's start.
    Start,
    /// A cursor's step.
    Step,
}

/// A table in lent memory, its bytes out of the library's reach, and the model's reading of them.
pub struct Subject<'a> {
    /// The bytes that are lent.
    pub lent: &'a [u8],
    /// The same bytes.
    pub bytes: &'a [u8],
    /// What the model reads.
    pub read: Read<'a>,
    /// The bytes of the MB file that are lent.
    lent_mb: &'a [u8],
    /// The same bytes.
    mb: &'a [u8],
}

impl<'a> Subject<'a> {
    /// A table that is lent.
    pub fn new(lent: &'a [u8], bytes: &'a [u8]) -> Subject<'a> {
        Subject {
            lent,
            bytes,
            read: Table::read(bytes),
            lent_mb: &[],
            mb: &[],
        }
    }

    /// The table with an MB file.
    pub fn with_mb(self, lent_mb: &'a [u8], mb: &'a [u8]) -> Subject<'a> {
        Subject {
            lent_mb,
            mb,
            ..self
        }
    }
}

impl Question {
    /// The call.
    pub fn call(self) -> Call {
        match self {
            Question::Header => Call::Header,
            Question::Field { .. } => Call::Field,
            Question::Cell { .. } => Call::Cell,
            Question::Blob { .. } => Call::Blob,
            Question::Record { .. } => Call::Record,
            Question::Start => Call::Start,
            Question::Step => Call::Step,
        }
    }

    /// How many numbers the answer has.
    fn length(self, read: &Read) -> usize {
        match self {
            Question::Header => HEADER_NUMBERS,
            Question::Field { .. } => FIELD_NUMBERS,
            Question::Cell { .. } => CELL_NUMBERS,
            Question::Blob { .. } => PART_NUMBERS,
            Question::Record { .. } => {
                let fields = read.as_ref().map_or(SOME_FIELDS, |read| read.header.fields);
                CELL_NUMBERS * fields
            }
            Question::Start | Question::Step => 1,
        }
    }

    /// Numbers to be lent, with random contents: most often enough of them.
    pub fn numbers(self, read: &Read, random: &mut Random) -> Vec<u64> {
        let length = self.length(read);
        let length = match random.below(100) {
            0..=59 => length,
            60..=84 => length + random.within(1..=MOST_BEYOND),
            85..=89 => 0,
            90..=94 => length - 1,
            _ => random.below(length + 1),
        };
        (0..length).map(|_| random.bits()).collect()
    }

    /// The library's answer.
    fn ask(self, subject: &Subject, numbers: &mut [u64]) -> u32 {
        let (table, mb) = (subject.lent, subject.lent_mb);
        match self {
            Question::Header => calls::header(table, numbers),
            Question::Field { field } => calls::field(table, field, numbers),
            Question::Cell {
                block,
                place,
                field,
            } => calls::cell(table, block, place, field, numbers),
            Question::Blob {
                block,
                place,
                field,
            } => calls::blob(table, mb, block, place, field, numbers),
            Question::Record { block, place } => calls::record(table, block, place, numbers),
            Question::Start => calls::start(table, numbers),
            Question::Step => calls::step(table, numbers),
        }
    }

    /// The model's answer.
    fn expect(self, subject: &Subject, numbers: &mut [u64]) -> u32 {
        let (bytes, mb, read) = (subject.bytes, subject.mb, &subject.read);
        match self {
            Question::Header => expected::header(read, numbers),
            Question::Field { field } => expected::field(read, field, numbers),
            Question::Cell {
                block,
                place,
                field,
            } => expected::cell(read, block, place, field, numbers),
            Question::Blob {
                block,
                place,
                field,
            } => expected::blob(read, mb, block, place, field, numbers),
            Question::Record { block, place } => expected::record(read, block, place, numbers),
            Question::Start => expected::start(bytes, read, numbers),
            Question::Step => expected::step(bytes, read, numbers),
        }
    }
}

/// Memory that is lent for answers, each part at a fence.
pub struct Memory {
    /// For numbers.
    pub numbers: Fence,
    /// For a text that is written.
    pub text: Fence,
    /// For a cell that is written.
    pub buffer: Fence,
}

impl Memory {
    /// Asks the library and the model with these numbers lent, and answers what the library does.
    pub fn ask(
        &mut self,
        run: &mut Run,
        subject: &Subject,
        question: Question,
        before: &[u64],
    ) -> u32 {
        let mut after = before.to_vec();
        let expected = question.expect(subject, &mut after);
        let side = run.side();
        self.numbers.place_numbers(before, side);
        let answer = question.ask(subject, self.numbers.numbers_mut());
        let call = question.call();
        run.tally.count_answer(call, expected, &after);
        let numbers = ("numbers", bytes_of(before));
        let lent = [numbers, ("asked", subject.bytes), ("mb", subject.mb)];
        let lent = if call == Call::Blob {
            &lent
        } else {
            &lent[..2]
        };
        let (room, first) = (before.len(), before.first().unwrap_or(&0));
        let asked = format_args!("{question:?} with {room} numbers, the first {first:#x}: ");
        run.judge(call, asked, (answer.into(), expected.into()), lent);
        run.judge_written(call, asked, (&self.numbers, bytes_of(&after)), lent);
        answer
    }

    /// As `ask`, with random numbers lent, most often enough of them.
    pub fn ask_any(&mut self, run: &mut Run, subject: &Subject, question: Question) -> u32 {
        let before = question.numbers(&subject.read, &mut run.random);
        self.ask(run, subject, question, &before)
    }
}

/// The bytes of numbers.
fn bytes_of(numbers: &[u64]) -> &[u8] {
    // SAFETY: a number is eight bytes, each of which may be anything.
    unsafe { numbers.align_to().1 }
}
