//! Field kinds and rule 7 (document 01, "Field rules").

use super::{Header, Part, Refusal};
use crate::codes;
use crate::layout::{field_area, names, MOST_NAME};

/// What a field's cells mean.
#[derive(Clone, Copy, Debug, PartialEq, Eq)]
pub enum Kind {
    /// Text of at most the field's width.
    Text,
    /// A day number.
    Date,
    /// A 16-bit number.
    Short,
    /// A 32-bit number.
    Long,
    /// A double, meant as money.
    Currency,
    /// A double.
    Number,
    /// True or false.
    Logical,
    /// A memo or another blob.
    Blob,
}

/// One field of a table.
#[derive(Clone, Copy, Debug, PartialEq, Eq)]
pub struct Field {
    /// The type code.
    pub code: u8,
    /// What its cells mean.
    pub kind: Kind,
    /// Bytes in each cell.
    pub width: usize,
}

impl Field {
    /// The field that a stored type and width stand for, where they are permitted.
    pub fn from_stored(code: u8, width: u8) -> Option<Field> {
        let (kind, widths) = match code {
            codes::TEXT => (Kind::Text, 1..=255),
            codes::DATE => (Kind::Date, 4..=4),
            codes::SHORT => (Kind::Short, 2..=2),
            codes::LONG => (Kind::Long, 4..=4),
            codes::CURRENCY => (Kind::Currency, 8..=8),
            codes::NUMBER => (Kind::Number, 8..=8),
            codes::LOGICAL => (Kind::Logical, 1..=1),
            codes::MEMO => (Kind::Blob, 11..=250),
            codes::FIRST_BLOB..=codes::LAST_BLOB => (Kind::Blob, 10..=250),
            _ => return None,
        };
        let width = usize::from(width);
        widths
            .contains(&width)
            .then_some(Field { code, kind, width })
    }
}

/// A field beside where its cells and its name are.
#[derive(Clone, Copy, Debug, PartialEq, Eq)]
pub struct PlacedField {
    /// The field.
    pub field: Field,
    /// Where its cells begin in a record.
    pub offset: usize,
    /// Its name, the ending zero apart.
    pub name: Part,
}

/// The stored types and widths, two bytes a field, the names and the key length of a table that
/// keeps rule 7.
pub struct Fields<'a> {
    stored: &'a [u8],
    named: &'a [u8],
    names: usize,
    /// The widths of the key fields, added up.
    pub key_length: usize,
}

impl<'a> Fields<'a> {
    /// Reads the fields of a table that keeps rules 1 to 6.
    pub fn read(bytes: &'a [u8], header: &Header) -> Result<Fields<'a>, Refusal> {
        Fields::keep_rules(bytes, header).ok_or(Refusal::Field)
    }

    fn keep_rules(bytes: &'a [u8], header: &Header) -> Option<Fields<'a>> {
        let inside = &bytes[..header.header_size];
        let start = field_area(header.version);
        let stored = inside.get(start..start + 2 * header.fields)?;
        let mut widths = 0;
        let mut key_length = 0;
        for (place, pair) in stored.chunks_exact(2).enumerate() {
            let field = Field::from_stored(pair[0], pair[1])?;
            widths += field.width;
            if place < header.key_fields {
                if field.kind == Kind::Blob {
                    return None;
                }
                key_length += field.width;
            }
        }
        let names = names(header.version, header.fields);
        let named = inside.get(names..)?;
        let good = widths == header.record_size && names_fit(named, header.fields);
        good.then_some(Fields {
            stored,
            named,
            names,
            key_length,
        })
    }

    /// The fields in their order.
    pub fn iter(&self) -> impl Iterator<Item = Field> + 'a {
        self.stored
            .chunks_exact(2)
            .filter_map(|pair| Field::from_stored(pair[0], pair[1]))
    }

    /// The field of a number, from 1, and where its cells begin in a record.
    pub fn get(&self, number: usize) -> Option<(Field, usize)> {
        let before = number.checked_sub(1)?;
        let field = self.iter().nth(before)?;
        let offset = self.iter().take(before).map(|field| field.width).sum();
        Some((field, offset))
    }

    /// The field of a number, from 1, with its name.
    pub fn placed(&self, number: usize) -> Option<PlacedField> {
        let (field, offset) = self.get(number)?;
        let name = self.name_parts().nth(number - 1)?;
        Some(PlacedField {
            field,
            offset,
            name,
        })
    }

    /// The names in their order, and whatever zero-ended bytes stand behind them.
    fn name_parts(&self) -> impl Iterator<Item = Part> + 'a {
        let mut start = self.names;
        self.named.split(|&byte| byte == 0).map(move |name| {
            let length = name.len();
            let part = Part { start, length };
            start += length + 1;
            part
        })
    }
}

/// Whether so many zero-ended names of 1 to 25 bytes stand at the start of an area.
fn names_fit(mut area: &[u8], fields: usize) -> bool {
    for _ in 0..fields {
        let longest = area.len().min(MOST_NAME + 1);
        match area[..longest].iter().position(|&byte| byte == 0) {
            None | Some(0) => return false,
            Some(length) => area = &area[length + 1..],
        }
    }
    true
}
