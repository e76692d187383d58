//! Faults in the order of keys, rule 10.

use super::{Fault, File};
use crate::layout::BLOCK_HEAD;
use crate::model::Table;
use crate::random::Random;

/// The faults of this file.
pub const FAULTS: &[Fault] = &[swapped_records, equal_keys, neighbour_key, key_byte];

/// Where the records of the used blocks begin, in chain order, and the key length.
struct Records {
    starts: Vec<usize>,
    record_size: usize,
    key_length: usize,
}

impl Records {
    fn of(table: &[u8]) -> Option<Records> {
        let read = Table::read(table).ok()?;
        let header = &read.header;
        let mut starts = Vec::new();
        for (number, block) in read.used_blocks() {
            let head = header.header_size + (usize::from(number) - 1) * header.block_size;
            let first = head + BLOCK_HEAD;
            let count = block.record_count().unwrap_or(0);
            starts.extend((0..count).map(|place| first + place * header.record_size));
        }
        (!starts.is_empty() && read.key_length() > 0).then_some(Records {
            starts,
            record_size: header.record_size,
            key_length: read.key_length(),
        })
    }
}

fn swapped_records(table: &mut File, random: &mut Random) {
    let Some(records) = Records::of(table) else {
        return;
    };
    let one = random.pick(&records.starts);
    let other = random.pick(&records.starts);
    for byte in 0..records.record_size {
        table.swap(one + byte, other + byte);
    }
}

/// A record with the key of the one before it, often across two blocks.
fn equal_keys(table: &mut File, random: &mut Random) {
    let Some(records) = Records::of(table) else {
        return;
    };
    let place = random.below(records.starts.len());
    let from = records.starts[place.saturating_sub(1)];
    let to = records.starts[place];
    table.copy_within(from..from + records.key_length, to);
}

/// A record whose key is one off that of the one before it.
fn neighbour_key(table: &mut File, random: &mut Random) {
    equal_keys(table, random);
    key_byte(table, random);
}

fn key_byte(table: &mut File, random: &mut Random) {
    let Some(records) = Records::of(table) else {
        return;
    };
    let start = random.pick(&records.starts);
    let any = random.below(records.key_length);
    let byte = random.pick(&[0, records.key_length - 1, any]);
    let step = random.pick(&[1, 0x80, 0xFF]);
    table[start + byte] = table[start + byte].wrapping_add(step);
}
