//! The values that cell_test writes.

use super::lines::Line;
use crate::model::Value;

/// Where the value stands.
pub const VALUE: u16 = 0x7000;
/// Where the bytes stand that are lent for a text.
const TEXT: usize = 0x7100;

/// The value of a letter, nothing where it is a text that reaches beyond the bytes lent.
pub fn value(letter: u8, line: &Line) -> Option<Value<'_>> {
    let value = match letter {
        b'F' => Value::Logical(false),
        b'T' => Value::Logical(true),
        b'S' => Value::Short(i16::from_be_bytes(stored(line, 0))),
        b'L' => Value::Long(i32::from_be_bytes(stored(line, 0))),
        b'D' => Value::Date(u32::from_be_bytes(stored(line, 0))),
        b'N' => Value::Double(f64::from_be_bytes(stored(line, 0))),
        b'P' => return text(line).map(Value::Text),
        _ => Value::Blank,
    };
    Some(value)
}

/// The part of the bytes lent for a text that the value's two words say, its start and its length.
fn text(line: &Line) -> Option<&[u8]> {
    let start = usize::from(u16::from_be_bytes(stored(line, 0)));
    let length = usize::from(u16::from_be_bytes(stored(line, 2)));
    line.beside(TEXT).get(start..start + length)
}

/// The value's bytes from an offset on.
fn stored<const COUNT: usize>(line: &Line, offset: usize) -> [u8; COUNT] {
    let bytes = &line.buffer[usize::from(VALUE) + offset..];
    *bytes.first_chunk().expect("the value is inside the buffer")
}
