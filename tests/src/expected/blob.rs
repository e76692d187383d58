//! The program blob_test: blobs of a table and its MB file.

use super::lines::{Lent, Line, Program, Said};
use super::show::{placed, placed_bytes, refused};
use crate::layout::UNIT;
use crate::mb;
use crate::model::{blob, Blob, Refusal};

/// Bytes in a table: a header of 1,024 and a block of 1,024.
const TABLE: u16 = 1024 + UNIT as u16;
/// Where the MB file stands.
const MB: usize = 0x2000;
/// Bytes in an MB file: four units.
const MB_LENT: u16 = 4 * mb::UNIT as u16;
/// Most bytes of a blob that are shown.
const MOST_SHOWN: usize = 64;

/// The program keeps nothing. A line's two numbers are block and place of a blob.
pub struct BlobTest;

impl Program for BlobTest {
    fn lent(&self) -> Lent {
        Lent {
            index: MB_LENT,
            ..Lent::new(0, TABLE)
        }
    }

    fn letter(&mut self, letter: u8, line: &mut Line) -> Said {
        if let Some(said) = line.note(letter) {
            return said;
        }
        match letter {
            b'?' => Said::Shown([b" ".as_slice(), &answer(line)].concat()),
            _ => Said::Nothing,
        }
    }

    fn end_of_case(&mut self, _line: &mut Line) -> Vec<u8> {
        Vec::new()
    }
}

/// The blob that a line asks for.
fn answer(line: &Line) -> Vec<u8> {
    let (table, mb) = (line.table(), line.beside(MB));
    let (block, place, field) = line.cell();
    show(table, mb, blob(table, mb, block, place, field))
}

/// A blob, and its bytes behind it where there are some, but not too many.
fn show(table: &[u8], mb: &[u8], blob: Result<Blob, Refusal>) -> Vec<u8> {
    let (what, part, file) = match blob {
        Ok(Blob::Blank) => return b"blank".to_vec(),
        Ok(Blob::InTable(part)) => ("table", part, table),
        Ok(Blob::InMb(part)) => ("mb", part, mb),
        Err(refusal) => return refused(refusal).into(),
    };
    match part.length {
        1..=MOST_SHOWN => placed_bytes(what, part, file),
        _ => placed(what, part).into(),
    }
}

#[cfg(test)]
mod tests {
    use super::*;
    use crate::expected::lines::run;

    /// A table of one field, a memo with a leader of 2, and an MB file with a block of its own.
    const FILES: &str = "> 0=0c00 2=0004 4=02 5=01 6=01 c=01 e=01 10=01 21=01 39=09\n\
                         > 78=0c0c d1'M' 3000=0201004000\n";

    fn printed(cases: &str) -> String {
        let input = [FILES, cases].concat();
        let printed = run(BlobTest, input.as_bytes());
        String::from_utf8_lossy(&printed).into_owned()
    }

    #[test]
    fn places_of_blobs() {
        let cases = "a: 1.0/1? 2? 40e=01 1?\n\
                     b: 406'ab' 40c=02 1.0/1? 408=ff10 40c=03 1? 3003=03 3009'tar' 1?\n\
                     c:\n";
        let expected = "a: blank !13 !18\n\
                        b: table 2 at 1030 [ab] !18 mb 3 at 4105 [tar]\n\
                        c:\n";
        assert_eq!(printed(cases), expected);
    }

    #[test]
    fn bytes_shown_and_left_out() {
        let shown = "x".repeat(MOST_SHOWN);
        let cases = format!(
            "a: 406=01 1.0/1?\n\
             b: 408=ff10 40c=40 3009'{shown}' 1.0/1? 40c=41 3003=41 1?\n"
        );
        let expected = format!(
            "a: table 0 at 1030\n\
             b: mb 64 at 4105 [{shown}] mb 65 at 4105\n"
        );
        assert_eq!(printed(&cases), expected);
    }

    #[test]
    fn lengths_lent() {
        let cases = "a: 408=ff10 40c=40 1fffi 1.0/1? 7fft 1? 800t 0i 1? 40c=00 408=0000 1?\n\
                     b: 408=ff50 40c=03 7000=0201000300 7009'tar' 5fffi 1.0/1? ffffi 1?\n";
        let expected = "a: !18 !6 !18 blank\n\
                        b: !18 mb 3 at 20489 [tar]\n";
        assert_eq!(printed(cases), expected);
    }
}
