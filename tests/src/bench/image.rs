//! The tables before they become bytes: full blocks, in a shuffled chain.

use crate::codes;
use crate::generate::{stored_double, Shape, StoredField, TableImage, UsedBlock};
use crate::random::Random;

/// Bytes in the header of each table.
pub const HEADER_SIZE: usize = 2048;
/// Blocks of the table of eight fields.
const BLOCKS: usize = 16;

/// A field: its name, type code and width.
pub type NamedField = (&'static str, u8, u8);

/// Code, description, price, stock, last delivery, on order: 49 bytes.
const PART: [NamedField; 6] = [
    ("a", codes::TEXT, 10),
    ("b", codes::TEXT, 24),
    ("c", codes::CURRENCY, 8),
    ("d", codes::SHORT, 2),
    ("e", codes::DATE, 4),
    ("f", codes::LOGICAL, 1),
];

/// A field of each kind that is read, and a second text: 55 bytes.
const ITEM: [NamedField; 8] = [
    ("Description", codes::TEXT, 20),
    ("Delivered", codes::DATE, 4),
    ("Stock", codes::SHORT, 2),
    ("Sold", codes::LONG, 4),
    ("Price", codes::CURRENCY, 8),
    ("Weight", codes::NUMBER, 8),
    ("On order", codes::LOGICAL, 1),
    ("Shelf", codes::TEXT, 8),
];

/// A stock list of parts, keyed by their codes.
pub fn parts(units: u8, records: usize, random: &mut Random) -> TableImage {
    let mut code = 0;
    image(shape(units, &PART, 1), records, random, |random| {
        code += random.within(2..=900);
        part(random, code)
    })
}

/// A table of eight fields without a key, in blocks of 4 KB.
pub fn items(random: &mut Random) -> TableImage {
    let shape = shape(4, &ITEM, 0);
    let records = BLOCKS * shape.capacity();
    let mut number = 0;
    image(shape, records, random, |_| {
        number += 1;
        item(number)
    })
}

/// A shape of these fields, the first of them the key.
pub fn shape(units: u8, fields: &[NamedField], key_fields: usize) -> Shape {
    let stored = |&(_, code, width): &NamedField| StoredField { code, width };
    let name = |&(name, ..): &NamedField| name.as_bytes().to_vec();
    Shape {
        version: 0x09,
        units,
        fields: fields.iter().map(stored).collect(),
        names: fields.iter().map(name).collect(),
        key_fields,
        header_size: HEADER_SIZE,
    }
}

/// A table of so many records in full blocks.
pub fn image(
    shape: Shape,
    records: usize,
    random: &mut Random,
    mut record: impl FnMut(&mut Random) -> Vec<u8>,
) -> TableImage {
    let blocks = records.div_ceil(shape.capacity());
    let mut numbers: Vec<u16> = (1..=blocks as u16).collect();
    random.shuffle(&mut numbers);
    let mut left = records;
    let chain = numbers.into_iter().map(|number| {
        let count = left.min(shape.capacity());
        left -= count;
        let mut records = Vec::with_capacity(count * shape.record_size());
        for _ in 0..count {
            records.extend(record(random));
        }
        UsedBlock { number, records }
    });
    TableImage {
        chain: chain.collect(),
        shape,
        free: Vec::new(),
        junk: None,
    }
}

/// A part whose code is P and nine digits.
fn part(random: &mut Random, code: usize) -> Vec<u8> {
    let mut record = format!("P{code:09}").into_bytes();
    let words = ["rope", "cleat", "block", "lamp", "anchor", "brush"];
    let description = format!("{} {}", random.pick(&words), random.below(1_000_000));
    record.extend(description.bytes());
    record.resize(34, 0);
    record.extend(stored_double(random.below(90_000) as f64 / 100.0).to_be_bytes());
    record.extend(stored_short(random.below(500) as u16));
    record.extend(stored_long(728_000 + random.below(2_000) as u32));
    record.push(random.pick(&[0x80, 0x81]));
    record
}

/// The item of a number, its texts as long as those of any other.
fn item(number: u32) -> Vec<u8> {
    let mut record = format!("brass screw {number:05}").into_bytes();
    record.resize(20, 0);
    record.extend(stored_long(728_000 + number));
    record.extend(stored_short((number % 500) as u16));
    record.extend(stored_long(number * 37));
    record.extend(stored_double(f64::from(number) / 100.0).to_be_bytes());
    record.extend(stored_double(f64::from(number) / 8.0).to_be_bytes());
    record.push(0x80 + (number % 2) as u8);
    record.extend(format!("A-{:02}", number % 100).bytes());
    record.resize(55, 0);
    record
}

fn stored_short(number: u16) -> [u8; 2] {
    (number ^ 1 << 15).to_be_bytes()
}

/// A long, or a day's number.
fn stored_long(number: u32) -> [u8; 4] {
    (number ^ 1 << 31).to_be_bytes()
}
