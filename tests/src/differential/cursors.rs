//! Cursors over a case's table: started, stepped, forged, and stepped on another table.

use super::arguments::any_record;
use super::difference::Run;
use super::question::{Memory, Question, Subject};
use super::tally::{Call, Event};
use crate::calls::{cursor_of, pack_cursor, RECORD};
use crate::model::{Cursor, Table};
use crate::random::Random;

/// Steps made from a start, at most: one of these. Broken chains are followed for a while, too.
const STEPS: [usize; 8] = [0, 1, 2, 3, 4, 5, 6, 60];
/// Forged cursors of a case, at most.
const FORGED: usize = 8;
/// Steps through an accepted table, at most.
const MOST_STEPS: usize = 300;
/// One record in so many is asked for on the way through.
const ASKED_EVERY: usize = 3;

impl Memory {
    /// Starts a cursor and steps it, then steps forged ones. Answers the last record that was reached.
    pub fn ask_cursors(&mut self, run: &mut Run, subject: &Subject) -> Option<u64> {
        let answer = self.ask_any(run, subject, Question::Start);
        let mut reached = (answer == RECORD).then(|| self.numbers.numbers()[0]);
        for _ in 0..run.random.pick(&STEPS) {
            let Some(cursor) = reached else { break };
            let (answer, next) = self.move_on(run, subject, Question::Step, cursor);
            if answer != RECORD {
                break;
            }
            reached = Some(next);
        }
        for _ in 0..run.random.within(1..=FORGED) {
            let forged = forge(run, subject, reached);
            if let Some(next) = self.step(run, subject, forged) {
                self.step(run, subject, next);
            }
        }
        reached
    }

    /// Steps a cursor, at times with no number lent; answers the next record.
    pub fn step(&mut self, run: &mut Run, subject: &Subject, cursor: u64) -> Option<u64> {
        let mut before = Question::Step.numbers(&subject.read, &mut run.random);
        if let Some(first) = before.first_mut() {
            *first = cursor;
        }
        let answer = self.ask(run, subject, Question::Step, &before);
        (answer == RECORD).then(|| self.numbers.numbers()[0])
    }

    /// Starts or steps a cursor with one number lent; answers what the library does, and that number.
    fn move_on(
        &mut self,
        run: &mut Run,
        subject: &Subject,
        question: Question,
        cursor: u64,
    ) -> (u32, u64) {
        let answer = self.ask(run, subject, question, &[cursor]);
        (answer, self.numbers.numbers()[0])
    }

    /// Goes through the records of an accepted table, which are those of the used blocks in chain
    /// order. Some of them are asked for.
    pub fn go_through(&mut self, run: &mut Run, subject: &Subject) {
        let Ok(table) = &subject.read else { return };
        run.tally.note(Event::GoneThrough);
        let own = run.random.bits();
        let (_, mut cursor) = self.move_on(run, subject, Question::Start, own);
        for (block, place) in places(table).take(MOST_STEPS) {
            let stands = cursor_of(cursor);
            if (stands.block, stands.place) != (block, place) || stands.ended {
                let what = format!("{stands:?} where block {block}, place {place} comes next");
                run.differ(Call::Step, what, &[("asked", subject.bytes)]);
                return;
            }
            if run.random.below(ASKED_EVERY) == 0 {
                self.ask_record(run, subject, block.into(), place.into());
            }
            (_, cursor) = self.move_on(run, subject, Question::Step, cursor);
        }
        if cursor != 0 && places(table).count() <= MOST_STEPS {
            let what = "a record behind the last".into();
            run.differ(Call::Step, what, &[("asked", subject.bytes)]);
        }
    }
}

/// The blocks and places of the records in chain order.
fn places<'a>(table: &'a Table) -> impl Iterator<Item = (u16, u16)> + 'a {
    table.used_blocks().flat_map(|(number, block)| {
        let count = block.record_count().unwrap_or(0) as u16;
        (0..count).map(move |place| (number, place))
    })
}

/// A cursor that the library need not have made: one of its own or one on some record, with a part
/// changed or two, or any number.
fn forge(run: &mut Run, subject: &Subject, reached: Option<u64>) -> u64 {
    let random = &mut run.random;
    let blocks = subject.read.as_ref().map_or(3, |table| table.header.blocks);
    let (block, place) = any_record(&subject.read, random);
    let some = pack_cursor(Cursor {
        block: block as u16,
        place: place as u16,
        moves: random.below(usize::from(blocks) + 1) as u16,
        ended: random.percent(10),
    });
    let mut cursor = match random.below(20) {
        0 => return random.bits(),
        1..=6 => reached.unwrap_or(0),
        _ => some,
    };
    for _ in 0..random.below(3) {
        cursor = with_part_changed(cursor, blocks, random);
    }
    cursor
}

/// A cursor with another number in one of its parts, often one near the number of blocks.
fn with_part_changed(cursor: u64, blocks: u16, random: &mut Random) -> u64 {
    let near = [0, 1, blocks.saturating_sub(1), blocks, blocks + 1, u16::MAX];
    let (start, bits) = random.pick(&[(0, 8), (8, 8), (16, 16), (32, 16), (48, 16)]);
    let any = random.bits();
    let limit = random.pick(&near).into();
    let value = random.pick(&[any, limit, limit]);
    let mask = ((1 << bits) - 1) << start;
    cursor & !mask | value << start & mask
}
