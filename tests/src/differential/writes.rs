//! Values written beside the model: values of all kinds, and those that cells were read as.

use super::difference::Run;
use super::question::{Memory, Subject};
use super::tally::Call;
use super::values::{any_buffer, any_text, any_written};
use crate::calls::{self, expected, pack_cell, Written};
use crate::fence::Fence;
use crate::model::Field;

/// Values written in any case.
const WRITES: usize = 24;

impl Memory {
    /// Writes values that no table need hold.
    pub fn write_values(&mut self, run: &mut Run) {
        for _ in 0..WRITES {
            let written = any_written(&mut run.random);
            let text = any_text(&mut run.random, written.width);
            let side = run.side();
            self.text.place(&text, side);
            let text_lent = self.text.lent();
            let written = Written {
                text: text_lent,
                ..written
            };
            let before = any_buffer(&mut run.random, written.width);
            if write(&mut self.buffer, run, written, &before) == 0 {
                read_again(&self.buffer, run, written);
            }
            if self.text.lent() != text || !self.text.is_intact() {
                let what = format!("{written:?}: the text was changed");
                run.differ(Call::Write, what, &[("text", &text)]);
            }
        }
    }

    /// Writes the cell that was just read: the bytes are those it was read from.
    pub fn write_again(
        &mut self,
        run: &mut Run,
        subject: &Subject,
        (block, place, field): (usize, usize, usize),
    ) {
        let Ok(table) = &subject.read else { return };
        let (Ok(start), Ok(placed)) = (table.record_start(block, place), table.field(field)) else {
            return;
        };
        let [what, value, length, ..] = *self.numbers.numbers() else {
            return;
        };
        let text = match what {
            calls::TEXT => subject
                .lent
                .get(value as usize..value.wrapping_add(length) as usize),
            _ => None,
        };
        let width = placed.field.width;
        let written = Written {
            code: placed.field.code.into(),
            width,
            what,
            value,
            text: text.unwrap_or(&[]),
        };
        let more = run.random.below(9);
        let before = run.random.bytes(width + more);
        let answer = write(&mut self.buffer, run, written, &before);
        let start = start + placed.offset;
        let stored = &subject.bytes[start..start + width];
        if answer != 0 || &self.buffer.lent()[..width] != stored {
            let what = format!("{written:?}: not the bytes {stored:x?} that it was read from");
            run.differ(Call::Write, what, &[]);
        }
    }
}

/// Lets the library and the model write a value, and answers what the library does.
fn write(buffer: &mut Fence, run: &mut Run, written: Written, before: &[u8]) -> u32 {
    let mut after = before.to_vec();
    let expected = expected::write(written, &mut after);
    let side = run.side();
    buffer.place(before, side);
    let answer = calls::write(written, buffer.lent_mut());
    run.tally
        .count_answer(Call::Write, expected, &[written.what, written.value]);
    let lent = [("text", written.text), ("buffer", before)];
    let asked = format_args!("{written:?} into {} bytes: ", before.len());
    run.judge(Call::Write, asked, (answer.into(), expected.into()), &lent);
    run.judge_written(Call::Write, asked, (buffer, &after), &lent);
    answer
}

/// Reads what was written by the model: it is the value.
fn read_again(buffer: &Fence, run: &mut Run, written: Written) {
    let expected = match written.what {
        calls::BLANK => [calls::BLANK, 0, 0, 0],
        calls::TEXT => [calls::TEXT, 0, written.text.len() as u64, 0],
        what => [what, written.value, 0, 0],
    };
    let field = Field::from_stored(written.code as u8, written.width as u8);
    let cell = field.and_then(|field| field.read(buffer.lent(), 0).ok());
    let same_text = written.what != calls::TEXT || buffer.lent().starts_with(written.text);
    if cell.map(pack_cell) != Some(expected) || !same_text {
        let what = format!("{written:?}: what was written reads as {cell:?}");
        run.differ(Call::Write, what, &[]);
    }
}
