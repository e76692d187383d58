//! The program cell_test: cells read and written.

use super::lines::{Lent, Line, Program, Said};
use super::show::{hex, placed_bytes, refused};
use super::table::TABLE;
use super::value::{value, VALUE};
use crate::model::{cell, write, Cell, Refusal, Table};

/// Bytes lent for a text where a line does not say it.
const TEXT_LENT: u16 = 7;
/// Bytes of the buffer for a value where a line does not say it.
const BUFFER_LENT: u16 = 12;
/// Most bytes of the buffer for a value.
const MOST_BUFFER: u16 = 256;

/// The program keeps nothing. A line's two numbers are block and place of a cell, or code and width of a value.
pub struct CellTest;

impl Program for CellTest {
    fn lent(&self) -> Lent {
        Lent {
            index: TEXT_LENT,
            ..Lent::new(BUFFER_LENT, TABLE)
        }
    }

    fn letter(&mut self, letter: u8, line: &mut Line) -> Said {
        if let Some(said) = line.note(letter) {
            return said;
        }
        match letter {
            b'v' => Said::Noted(VALUE),
            b'?' => {
                let (block, place, field) = line.cell();
                let asked = cell(line.table(), block, place, field);
                Said::Shown([b" ".as_slice(), &show(line.table(), asked)].concat())
            }
            b'l' => Said::Shown(every_cell(line.table())),
            b'B' | b'F' | b'T' | b'S' | b'L' | b'D' | b'N' | b'P' => {
                Said::Shown(written(letter, line).into())
            }
            _ => Said::Shown(Vec::new()),
        }
    }

    fn end_of_case(&mut self, line: &mut Line) -> Vec<u8> {
        every_cell(line.table())
    }
}

/// The value of a letter, written: the answer, and the buffer afterwards. Nothing is asked with a
/// buffer that is too long.
fn written(letter: u8, line: &Line) -> String {
    if line.lent.marks > MOST_BUFFER {
        return String::new();
    }
    let code = u64::from(line.first & 0xFF);
    let width = usize::from(line.second);
    let mut buffer = vec![line.lent.fill; line.lent.marks.into()];
    let written = write(code, width, value(letter, line), &mut buffer);
    let answer = written.map_or_else(Refusal::number, |()| 0);
    format!(" {answer}:{}", hex(&buffer))
}

/// Every cell of a table, block after block, used or not; the refusal that ends a block, or the table's.
fn every_cell(bytes: &[u8]) -> Vec<u8> {
    let table = match Table::read(bytes) {
        Ok(table) => table,
        Err(refusal) => return format!(" {}", refused(refusal)).into(),
    };
    let mut shown = Vec::new();
    for block in 1..=usize::from(table.header.blocks) {
        for place in 0.. {
            shown.extend(format!(" {block}.{place}").into_bytes());
            let first = cell(bytes, block, place, 1);
            if let Err(refusal @ (Refusal::Count | Refusal::Argument)) = first {
                shown.extend(refused(refusal).into_bytes());
                break;
            }
            for field in 1..=table.header.fields {
                shown.push(b'|');
                shown.extend(show(bytes, cell(bytes, block, place, field)));
            }
        }
    }
    shown
}

/// A cell, and the bytes of a text behind it.
fn show(table: &[u8], cell: Result<Cell, Refusal>) -> Vec<u8> {
    let shown = match cell {
        Ok(Cell::Blank) => "blank".to_string(),
        Ok(Cell::Short(number)) => format!("short {number}"),
        Ok(Cell::Long(number)) => format!("long {number}"),
        Ok(Cell::Date(day)) => format!("date {day}"),
        Ok(Cell::Logical(false)) => "logical F".to_string(),
        Ok(Cell::Logical(true)) => "logical T".to_string(),
        Ok(Cell::Double(number)) => format!("number {:016x}", number.to_bits()),
        Ok(Cell::Text(text)) => return placed_bytes("text", text, table),
        Err(refusal) => refused(refusal),
    };
    shown.into()
}

#[cfg(test)]
mod tests {
    use super::*;
    use crate::expected::lines::run;

    fn printed(input: &str) -> String {
        let printed = run(CellTest, input.as_bytes());
        String::from_utf8_lossy(&printed).into_owned()
    }

    #[test]
    fn cells_read() {
        let input = "> 0=0500 2=0005 5=01 6=02 c=01 e=01 10=01 21=02 23=01 39=09\n\
                     > 78=01030302 d7'Part' dc'Qty'\n\
                     > 504=0500 506'cog'=800c'nut'=0000\n\
                     a: 900t\n\
                     b: 900t 1.1/1? 2? 3?\n\
                     c: 8fft\n";
        let expected =
            "a: 1.0|text 3 at 1286 [cog]|short 12 1.1|text 3 at 1291 [nut]|blank 1.2!13\n\
                        b: text 3 at 1291 [nut] blank !13\n\
                        c: !6\n";
        assert_eq!(printed(input), expected);
    }

    #[test]
    fn values_written() {
        let input = "a: 3.2/4m v=0001S v=8000S 1m S\n\
                     b: 1.3/4m 7100'cogs' v=00000003P v=00000004P v=00040004P v=00040000P\n";
        let expected = "a: 0:8001aaaa 11:aaaaaaaa 14:aa\n\
                        b: 0:636f67aa 11:aaaaaaaa 13:aaaaaaaa 11:aaaaaaaa\n";
        assert_eq!(printed(input), expected);
    }
}
