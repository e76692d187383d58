//! How the test programs print answers and marks.

use super::lines::Lent;
use crate::model::{Part, Place, Refusal, Walked};
use std::fmt::Write;

/// Bytes as hexadecimal digits.
pub fn hex(bytes: &[u8]) -> String {
    bytes.iter().fold(String::new(), |mut digits, byte| {
        write!(digits, "{byte:02x}").expect("a string takes whatever is written to it");
        digits
    })
}

/// A refusal's number.
pub fn refused(refusal: Refusal) -> String {
    format!("!{}", refusal.number())
}

/// A part of a file: what it is, its length and where it begins.
pub fn placed(what: &str, part: Part) -> String {
    format!("{what} {} at {}", part.length, part.start)
}

/// A part of a file, and its bytes behind it.
pub fn placed_bytes(what: &str, part: Part, file: &[u8]) -> Vec<u8> {
    let bytes = &file[part.start..part.start + part.length];
    [placed(what, part).as_bytes(), b" [", bytes, b"]"].concat()
}

/// A scan's answer.
pub fn scanned(answer: Result<Option<Place>, Refusal>) -> String {
    match answer {
        Ok(Some(found)) => format!("{}.{}", found.block, found.place),
        Ok(None) => "-".to_string(),
        Err(refusal) => refused(refusal),
    }
}

/// A walk's answer, with the index blocks read, 0 of them for a refusal.
pub fn walked(answer: Result<Walked, Refusal>) -> String {
    let index_blocks = answer.map_or(0, |walked| walked.index_blocks);
    let found = scanned(answer.map(|walked| walked.found));
    format!("{found}/{index_blocks}")
}

/// A mark buffer, of which the first bytes are lent.
pub struct Marks {
    bytes: Vec<u8>,
    lent: usize,
}

impl Marks {
    /// A buffer of so many marks, filled and lent as the line says.
    pub fn new(marks: u16, lent: Lent) -> Marks {
        Marks {
            bytes: vec![lent.fill; marks.into()],
            lent: lent.marks.into(),
        }
    }

    /// The marks lent. With more than there are, no call is made.
    pub fn lent(&mut self) -> Option<&mut [u8]> {
        self.bytes.get_mut(..self.lent)
    }

    /// All marks, lent or not.
    pub fn shown(&self) -> String {
        format!(" {}", hex(&self.bytes))
    }
}
