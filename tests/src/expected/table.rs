//! The program table_test: the table check.

use super::lines::{Lent, Line, Program, Said};
use super::show::Marks;
use crate::calls::check_number;
use crate::layout::UNIT;
use crate::model::table_check;

/// Bytes in a table: a header of 256 and six blocks of 1,024.
pub const TABLE: u16 = 256 + 6 * UNIT as u16;
/// Marks in the buffer.
pub const MARKS: u16 = 8;

/// The program has nothing to remember.
pub struct TableTest;

impl Program for TableTest {
    fn lent(&self) -> Lent {
        Lent::new(MARKS, TABLE)
    }

    /// `!` asks for the check with all lent.
    fn letter(&mut self, letter: u8, line: &mut Line) -> Said {
        if letter != b'!' {
            return Said::Nothing;
        }
        let mut marks = Marks::new(MARKS, self.lent());
        Said::Shown(check(&line.buffer[..TABLE.into()], &mut marks).into())
    }

    fn end_of_case(&mut self, line: &mut Line) -> Vec<u8> {
        let mut marks = Marks::new(MARKS, line.lent);
        let checked = check(line.table(), &mut marks);
        (checked + &marks.shown()).into()
    }
}

/// The check's number, nothing where it is not made.
fn check(table: &[u8], marks: &mut Marks) -> String {
    marks.lent().map_or_else(String::new, |lent| {
        format!(" {}", check_number(&table_check(table, lent)))
    })
}
