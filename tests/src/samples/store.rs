//! Values in their stored forms, and shapes with real names.

use crate::codes;
use crate::generate::{stored_double, Shape, StoredField};

/// The bytes before the first block in files of Paradox.
const HEADER_SIZE: usize = 2048;

/// A text field.
pub fn text_field(width: u8) -> StoredField {
    StoredField {
        code: codes::TEXT,
        width,
    }
}

/// A date field.
pub const DATE: StoredField = StoredField {
    code: codes::DATE,
    width: 4,
};
/// A short field.
pub const SHORT: StoredField = StoredField {
    code: codes::SHORT,
    width: 2,
};
/// A currency field.
pub const CURRENCY: StoredField = StoredField {
    code: codes::CURRENCY,
    width: 8,
};
/// A number field.
pub const NUMBER: StoredField = StoredField {
    code: codes::NUMBER,
    width: 8,
};
/// A logical field.
pub const LOGICAL: StoredField = StoredField {
    code: codes::LOGICAL,
    width: 1,
};

/// A shape with 1 KB blocks and the usual header.
pub fn shape(version: u8, key_fields: usize, named: &[(&str, StoredField)]) -> Shape {
    Shape {
        version,
        units: 1,
        fields: named.iter().map(|(_, field)| *field).collect(),
        names: named
            .iter()
            .map(|(name, _)| name.as_bytes().to_vec())
            .collect(),
        key_fields,
        header_size: HEADER_SIZE,
    }
}

/// A text, with zeros up to its width.
pub fn text(width: u8, text: &str) -> Vec<u8> {
    let mut stored = text.as_bytes().to_vec();
    stored.resize(width.into(), 0);
    stored
}

/// A short.
pub fn short(value: i16) -> Vec<u8> {
    (value as u16 ^ 0x8000).to_be_bytes().to_vec()
}

/// A number or a currency.
pub fn number(value: f64) -> Vec<u8> {
    stored_double(value).to_be_bytes().to_vec()
}

/// True or false.
pub fn logical(value: bool) -> Vec<u8> {
    vec![if value { 0x81 } else { 0x80 }]
}

/// A day of the Gregorian calendar, its month and day counted from 1.
pub fn date(year: u32, month: usize, day: u32) -> Vec<u8> {
    const BEFORE_MONTH: [u32; 12] = [0, 31, 59, 90, 120, 151, 181, 212, 243, 273, 304, 334];
    let leap = year.is_multiple_of(4) && !year.is_multiple_of(100) || year.is_multiple_of(400);
    let leap_day = u32::from(leap && month > 2);
    let past = year - 1;
    let years = past * 365 + past / 4 - past / 100 + past / 400;
    let number = years + BEFORE_MONTH[month - 1] + leap_day + day;
    (number ^ 1 << 31).to_be_bytes().to_vec()
}

/// A blank of a field.
pub fn blank(field: StoredField) -> Vec<u8> {
    vec![0; field.width.into()]
}
