//! Writing a cell (document 01, "Cells", last paragraph; doubles by request 02 of document 02).

use super::cells::{FALSE, FIRST_DAY, LAST_DAY, TRUE};
use super::{Field, Kind, Refusal};

/// A value to be written, which need not have a stored form.
#[derive(Clone, Copy, Debug, PartialEq)]
pub enum Value<'a> {
    /// Nothing.
    Blank,
    /// A text.
    Text(&'a [u8]),
    /// A day number.
    Date(u32),
    /// A 16-bit number.
    Short(i16),
    /// A 32-bit number.
    Long(i32),
    /// A currency or a number.
    Double(f64),
    /// True or false.
    Logical(bool),
}

impl Value<'_> {
    /// Whether cells of a kind hold such values.
    fn suits(self, kind: Kind) -> bool {
        match self {
            Value::Blank => true,
            Value::Text(_) => kind == Kind::Text,
            Value::Date(_) => kind == Kind::Date,
            Value::Short(_) => kind == Kind::Short,
            Value::Long(_) => kind == Kind::Long,
            Value::Double(_) => matches!(kind, Kind::Currency | Kind::Number),
            Value::Logical(_) => kind == Kind::Logical,
        }
    }
}

/// Writes a value to the first width bytes of a buffer. None is a value of no kind.
pub fn write(
    code: u64,
    width: usize,
    value: Option<Value>,
    buffer: &mut [u8],
) -> Result<(), Refusal> {
    let field = field_of(code, width).ok_or(Refusal::Argument)?;
    if field.kind == Kind::Blob {
        return Err(Refusal::Blob);
    }
    let value = value.filter(|value| value.suits(field.kind));
    let value = value.ok_or(Refusal::Argument)?;
    let cell = buffer.get_mut(..width).ok_or(Refusal::Buffer)?;
    store(value, cell).ok_or(Refusal::Meaningless)
}

fn field_of(code: u64, width: usize) -> Option<Field> {
    Field::from_stored(code.try_into().ok()?, width.try_into().ok()?)
}

/// Stores a value of the cell's kind, where it has a stored form.
fn store(value: Value, cell: &mut [u8]) -> Option<()> {
    match value {
        Value::Blank => {
            cell.fill(0);
            Some(())
        }
        Value::Text(text) if text.contains(&0) => None,
        Value::Text(text) => put(text, cell),
        Value::Date(day) if !(FIRST_DAY as u32..=LAST_DAY as u32).contains(&day) => None,
        Value::Date(day) => put(&(day ^ 1 << 31).to_be_bytes(), cell),
        Value::Short(number) => put(&(number as u16 ^ 1 << 15).to_be_bytes(), cell),
        Value::Long(number) => put(&(number as u32 ^ 1 << 31).to_be_bytes(), cell),
        Value::Double(number) if !number.is_finite() => None,
        Value::Double(number) => put(&stored_double(number).to_be_bytes(), cell),
        Value::Logical(false) => put(&[FALSE], cell),
        Value::Logical(true) => put(&[TRUE], cell),
    }
}

/// By request 02 of document 02: a sign bit of 0 is set; with one of 1, that of negative zero too, all 64 bits are
/// complemented. For a finite double this is never the blank's 0.
fn stored_double(number: f64) -> u64 {
    let bits = number.to_bits();
    match bits >> 63 {
        0 => bits | 1 << 63,
        _ => !bits,
    }
}

/// Stores bytes and zeros behind them, where they fit and are not those of a blank. The least short,
/// the least long and an empty text have no others.
fn put(stored: &[u8], cell: &mut [u8]) -> Option<()> {
    let fits = stored.len() <= cell.len();
    if !fits || stored.iter().all(|&byte| byte == 0) {
        return None;
    }
    let (front, behind) = cell.split_at_mut(stored.len());
    front.copy_from_slice(stored);
    behind.fill(0);
    Some(())
}
