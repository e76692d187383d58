//! The program pair_test: the pair check, the walk and the scan.

use super::lines::{Lent, Line, Program, Said};
use super::neighbours;
use super::show::{scanned, walked, Marks};
use crate::calls::check_number;
use crate::model::{pair_check, scan, walk};

/// Where the index stands.
const INDEX: usize = 0x3000;
/// Where a key stands.
const KEY: u16 = 0x6000;
/// Marks in the buffer.
pub const MARKS: u16 = 16;

/// The program keeps the lengths of the files.
pub struct PairTest {
    lent: Lent,
}

impl PairTest {
    /// The program before its first line.
    pub fn new() -> PairTest {
        PairTest {
            lent: Lent::new(MARKS, 0),
        }
    }
}

impl Program for PairTest {
    fn lent(&self) -> Lent {
        self.lent
    }

    fn letter(&mut self, letter: u8, line: &mut Line) -> Said {
        if let Some(said) = line.note(letter) {
            return said;
        }
        match letter {
            b'k' => Said::Noted(KEY),
            _ => Said::Shown(answer(letter, line).into()),
        }
    }

    fn end_of_case(&mut self, line: &mut Line) -> Vec<u8> {
        answer(b'!', line).into()
    }

    fn end_of_changes(&mut self, line: &Line) {
        self.lent.table = line.lent.table;
        self.lent.index = line.lent.index;
    }
}

/// The answer to a letter: a call's, with or without the marks, or those to every key.
fn answer(letter: u8, line: &Line) -> String {
    let key = line.buffer.get(KEY.into()..line.number.into());
    let key = key.unwrap_or(&[]);
    let files = Files::of(line);
    let mut marks = Marks::new(MARKS, line.lent);
    let asked = marks.lent().map_or_else(String::new, |lent| match letter {
        b'?' | b'!' => files.check(lent),
        b'w' => format!(" {}", walked(walk(files.table, files.index, key))),
        b's' => format!(" {}", scanned(scan(files.table, key, lent))),
        b'l' | b'h' => files.look_up(key, lent),
        _ => String::new(),
    });
    match letter {
        b'!' | b'h' => asked + &marks.shown(),
        b'v' => neighbours::look_up(line),
        _ => asked,
    }
}

/// The two files that a line lends.
pub struct Files<'l> {
    /// The table.
    pub table: &'l [u8],
    /// The index.
    pub index: &'l [u8],
}

impl Files<'_> {
    /// The files of a line.
    pub fn of(line: &Line) -> Files<'_> {
        Files {
            table: line.table(),
            index: line.beside(INDEX),
        }
    }

    /// The pair check's number.
    fn check(&self, marks: &mut [u8]) -> String {
        let number = check_number(&pair_check(self.table, self.index, marks));
        format!(" {number}")
    }

    /// A key looked up both ways, behind the pair check's number.
    pub fn look_up(&self, key: &[u8], marks: &mut [u8]) -> String {
        let check = self.check(marks);
        let walked = walked(walk(self.table, self.index, key));
        let scanned = scanned(scan(self.table, key, marks));
        format!("{check}:{walked}:{scanned}")
    }
}
