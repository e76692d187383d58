//! The program records_test: the cursor and the scan.

use super::lines::{Lent, Line, Program, Said};
use super::show::{refused, scanned, Marks};
use super::table::{MARKS, TABLE};
use crate::model::{scan, start, step, Cursor, Stepped};

/// Where a key stands, behind the table.
const KEY: u16 = TABLE;
/// Most answers of one listing.
const MOST_ANSWERS: usize = 64;

/// The program keeps the cursor of its last answer, over all lines.
pub struct RecordsTest {
    cursor: Cursor,
}

impl RecordsTest {
    /// The program before its first line.
    pub fn new() -> RecordsTest {
        let cursor = Cursor::ENDED;
        RecordsTest { cursor }
    }
}

impl Program for RecordsTest {
    fn lent(&self) -> Lent {
        Lent::new(MARKS, TABLE)
    }

    fn letter(&mut self, letter: u8, line: &mut Line) -> Said {
        let number = line.number;
        match letter {
            b'.' => self.note(|cursor| cursor.block = number),
            b'/' => self.note(|cursor| cursor.place = number),
            b'k' => Said::Noted(KEY),
            _ => Said::Shown(self.answer(letter, line).into()),
        }
    }

    fn end_of_case(&mut self, line: &mut Line) -> Vec<u8> {
        self.list(line).into()
    }
}

impl RecordsTest {
    /// Changes the cursor, which has not ended from now on.
    fn note(&mut self, change: impl FnOnce(&mut Cursor)) -> Said {
        change(&mut self.cursor);
        self.cursor.ended = false;
        Said::Noted(0)
    }

    /// The answer to a letter: the cursor's or a scan's.
    fn answer(&mut self, letter: u8, line: &Line) -> String {
        match letter {
            b'n' | b'*' => {
                self.cursor.moves = line.number;
                self.cursor.ended = letter == b'*';
                self.step(line)
            }
            b'r' => self.step(line),
            b's' => self.show(start(line.table())),
            b'l' => self.list(line),
            b'?' => look_up(line, &mut marks(line)),
            b'!' => {
                let mut marks = marks(line);
                look_up(line, &mut marks) + &marks.shown()
            }
            _ => String::new(),
        }
    }

    /// Steps the cursor.
    fn step(&mut self, line: &Line) -> String {
        self.show(step(line.table(), self.cursor))
    }

    /// The first record and those behind it, up to an answer that is none.
    fn list(&mut self, line: &Line) -> String {
        let table = line.table();
        let mut shown = String::new();
        let mut answer = start(table);
        for _ in 1..MOST_ANSWERS {
            shown += &self.show(answer);
            let Stepped::Record(cursor) = answer else {
                return shown;
            };
            answer = step(table, cursor);
        }
        shown + &self.show(answer)
    }

    /// An answer, whose cursor is kept.
    fn show(&mut self, answer: Stepped) -> String {
        let (said, cursor) = match answer {
            Stepped::Record(cursor) => (String::new(), cursor),
            Stepped::End(cursor) => (" end".to_string(), cursor),
            Stepped::Refused(refusal, cursor) => (format!(" {}", refused(refusal)), cursor),
        };
        self.cursor = cursor;
        let star = if cursor.ended { "*" } else { "" };
        let Cursor {
            block,
            place,
            moves,
            ..
        } = cursor;
        format!("{said} {block}.{place}/{moves}{star}")
    }
}

fn marks(line: &Line) -> Marks {
    Marks::new(MARKS, line.lent)
}

/// A scan for the key that ends before the line's number, nothing where it is not made.
fn look_up(line: &Line, marks: &mut Marks) -> String {
    let key = line.buffer.get(KEY.into()..line.number.into());
    marks.lent().map_or_else(String::new, |lent| {
        format!(" {}", scanned(scan(line.table(), key.unwrap_or(&[]), lent)))
    })
}
