//! The shape of a table: version, sizes, fields, names.

use crate::codes::{self, CURRENCY, DATE, LOGICAL, LONG, MEMO, NUMBER, SHORT, TEXT};
use crate::layout::*;
use crate::random::Random;

/// The longest keys whose entries fit in blocks of 1 to 4 units, and one more.
const ENTRY_LIMITS: [usize; 8] = [1012, 1013, 2036, 2037, 3060, 3061, 4084, 4085];
const NARROW_CODES: [u8; 5] = [TEXT, TEXT, TEXT, SHORT, LOGICAL];

/// A type code and a width as a header stores them.
#[derive(Clone, Copy, Debug, PartialEq, Eq)]
pub struct StoredField {
    /// The type code.
    pub code: u8,
    /// The width.
    pub width: u8,
}

/// What a table's header says of its records.
#[derive(Clone)]
pub struct Shape {
    /// The version byte.
    pub version: u8,
    /// The block size in units.
    pub units: u8,
    /// The fields in their order.
    pub fields: Vec<StoredField>,
    /// The names of the fields, without their ending zeros.
    pub names: Vec<Vec<u8>>,
    /// How many of the fields are the key.
    pub key_fields: usize,
    /// Bytes in the header.
    pub header_size: usize,
}

impl Shape {
    /// A random shape.
    pub fn random(random: &mut Random) -> Shape {
        let units = random.within(1..=4) as u8;
        let most = usize::from(units) * UNIT - BLOCK_HEAD;
        let (fields, key_fields) = if random.percent(4) {
            (long_key(random, most), MOST_FIELDS)
        } else {
            let key_fields = random_key_fields(random);
            (random_fields(random, most, key_fields), key_fields)
        };
        let version = random.within(FIRST_VERSION.into()..=LAST_VERSION.into()) as u8;
        let names = random_names(random, fields.len());
        let least = least_header(version, &names);
        Shape {
            version,
            units,
            key_fields: key_fields.min(fields.len()),
            fields,
            names,
            header_size: random_header_size(random, least),
        }
    }

    /// The shape of a small file: two narrow fields, one of them the key, and the least header.
    pub fn small(random: &mut Random) -> Shape {
        let version = random.pick(&[0x04, 0x09]);
        let fields = vec![
            StoredField {
                code: TEXT,
                width: 2,
            },
            StoredField {
                code: SHORT,
                width: 2,
            },
        ];
        let names = vec![vec![b'a'], vec![b'b']];
        Shape {
            version,
            units: 1,
            key_fields: 1,
            header_size: least_header(version, &names),
            fields,
            names,
        }
    }

    /// Bytes in a record.
    pub fn record_size(&self) -> usize {
        width_of(&self.fields)
    }

    /// Bytes in a key.
    pub fn key_length(&self) -> usize {
        width_of(&self.fields[..self.key_fields])
    }

    /// Where the blob cells of a record begin, each with its width.
    pub fn blob_places(&self) -> Vec<(usize, usize)> {
        let mut start = 0;
        let place = |field: &StoredField| {
            let width = usize::from(field.width);
            start += width;
            let is_blob = codes::BLOBS.contains(&field.code);
            is_blob.then_some((start - width, width))
        };
        self.fields.iter().filter_map(place).collect()
    }

    /// Bytes in a block.
    pub fn block_size(&self) -> usize {
        usize::from(self.units) * UNIT
    }

    /// How many records fit in a block.
    pub fn capacity(&self) -> usize {
        (self.block_size() - BLOCK_HEAD) / self.record_size()
    }
}

fn width_of(fields: &[StoredField]) -> usize {
    fields.iter().map(|field| usize::from(field.width)).sum()
}

/// How many key fields to have, at most: none, one, some or all.
fn random_key_fields(random: &mut Random) -> usize {
    match random.below(100) {
        0..=17 => 0,
        18..=64 => 1,
        65..=91 => random.within(2..=5),
        _ => MOST_FIELDS,
    }
}

fn random_fields(random: &mut Random, most: usize, key_fields: usize) -> Vec<StoredField> {
    let count = match random.below(100) {
        0..=69 => random.within(1..=8),
        70..=89 => random.within(9..=30),
        90..=95 => random.within(31..=254),
        _ => MOST_FIELDS,
    };
    let narrow = count > 30;
    let mut fields = Vec::new();
    let mut size = 0;
    while fields.len() < count {
        let in_key = fields.len() < key_fields;
        let field = random_field(random, narrow, in_key);
        size += usize::from(field.width);
        if size > most {
            break;
        }
        fields.push(field);
    }
    fields
}

/// A random field that need not suit a key.
pub fn any_field(random: &mut Random) -> StoredField {
    random_field(random, false, false)
}

fn random_field(random: &mut Random, narrow: bool, in_key: bool) -> StoredField {
    let code = match (narrow, in_key) {
        (true, _) => random.pick(&NARROW_CODES),
        (_, true) => random.pick(&codes::OF_KEYS),
        _ => random.pick(&codes::ALL),
    };
    let width = match code {
        TEXT if narrow => random.within(1..=3),
        TEXT => random_text_width(random),
        DATE | LONG => 4,
        SHORT => 2,
        CURRENCY | NUMBER => 8,
        LOGICAL => 1,
        MEMO => random_blob_width(random, 11),
        _ => random_blob_width(random, 10),
    };
    let width = width as u8;
    StoredField { code, width }
}

fn random_text_width(random: &mut Random) -> usize {
    match random.below(20) {
        0..=10 => random.within(1..=12),
        11..=16 => random.within(1..=40),
        17..=18 => random.within(1..=255),
        _ => 255,
    }
}

fn random_blob_width(random: &mut Random, least: usize) -> usize {
    match random.below(10) {
        0..=4 => least,
        5..=8 => random.within(least..=60),
        _ => 250,
    }
}

/// Wide texts, up to the largest record that there is, or with a key whose entry just fits an index
/// block of some size, or just does not.
fn long_key(random: &mut Random, most: usize) -> Vec<StoredField> {
    let lengths = [most, most / 2, most / 3, random.pick(&ENTRY_LIMITS)];
    let mut left = most.min(random.pick(&lengths));
    let mut fields = Vec::new();
    while left > 0 {
        let width = left.min(255);
        left -= width;
        let width = width as u8;
        fields.push(StoredField { code: TEXT, width });
    }
    fields
}

fn random_names(random: &mut Random, count: usize) -> Vec<Vec<u8>> {
    let lengths = random.pick(&[(1, 8), (1, MOST_NAME), (1, 1), (MOST_NAME, MOST_NAME)]);
    let letters = random.percent(50);
    let byte = |random: &mut Random| {
        if letters {
            b'a' + random.below(26) as u8
        } else {
            random.byte().max(1)
        }
    };
    let name = |_| {
        let length = random.within(lengths.0..=lengths.1);
        (0..length).map(|_| byte(random)).collect()
    };
    (0..count).map(name).collect()
}

/// The fewest bytes that a header with these names has.
pub fn least_header(version: u8, names: &[Vec<u8>]) -> usize {
    let named: usize = names.iter().map(|name| name.len() + 1).sum();
    crate::layout::names(version, names.len()) + named
}

fn random_header_size(random: &mut Random, least: usize) -> usize {
    match random.below(100) {
        0..=29 => least,
        30..=49 => least + random.within(1..=64),
        50..=94 => least.next_multiple_of(2048),
        95..=97 => random.within(least..=least + 9000),
        _ => random.pick(&[32_767, 32_768, 65_535]),
    }
}
