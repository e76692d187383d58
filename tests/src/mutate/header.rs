//! Faults in a table's header: each number at its limits and one beside them.

use super::{near, Fault, File};
use crate::layout::*;
use crate::random::Random;

/// The faults of this file. Two stand twice, for no other fault leads to their refusals.
pub const FAULTS: &[Fault] = &[
    file_type,
    version,
    version,
    encrypted,
    encrypted,
    other_encryption,
    block_units,
    record_size,
    header_size,
    blocks,
    field_count,
    key_field_count,
    record_count,
    sort,
    chain_words,
];

fn has_header(table: &[u8]) -> bool {
    table.len() >= LEAST_TABLE
}

fn set_byte(table: &mut [u8], offset: usize, value: u8) {
    if has_header(table) {
        table[offset] = value;
    }
}

fn set_near(table: &mut [u8], offset: usize, limits: &[usize], random: &mut Random) {
    if has_header(table) {
        let own = word(table, offset).into();
        let limits = [limits, &[own]].concat();
        put_word(table, offset, near(&limits, random));
    }
}

fn block_size(table: &[u8]) -> usize {
    table
        .get(BLOCK_UNITS)
        .map_or(UNIT, |&units| usize::from(units.max(1)) * UNIT)
}

fn file_type(table: &mut File, random: &mut Random) {
    let value = random.pick(&[0, 1, 2, 3, 4, 255]);
    set_byte(table, FILE_TYPE, value);
}

fn version(table: &mut File, random: &mut Random) {
    let value = random.pick(&[0, 2, 3, 4, 5, 0x0B, 0x0C, 0x80, 0xFF]);
    set_byte(table, VERSION, value);
}

fn encrypted(table: &mut File, random: &mut Random) {
    if has_header(table) {
        let byte = encryption(table[VERSION]) + random.below(4);
        table[byte] = random.pick(&[1, 0x80, 0xFF]);
    }
}

/// The encryption bytes of the other versions, which are not judged.
fn other_encryption(table: &mut File, random: &mut Random) {
    if has_header(table) && table[VERSION] > LAST_EARLY_VERSION {
        random.fill(&mut table[EARLY_ENCRYPTION..EARLY_ENCRYPTION + 4]);
    }
}

fn block_units(table: &mut File, random: &mut Random) {
    let value = random.pick(&[0, 1, 2, 3, 4, 5, 32, 255]);
    set_byte(table, BLOCK_UNITS, value);
}

fn record_size(table: &mut File, random: &mut Random) {
    let most = block_size(table) - BLOCK_HEAD;
    set_near(table, RECORD_SIZE, &[0, most], random);
}

fn header_size(table: &mut File, random: &mut Random) {
    let limits = [0, LEAST_TABLE, 179, 211, 32_767, 65_535];
    set_near(table, HEADER_SIZE, &limits, random);
}

fn blocks(table: &mut File, random: &mut Random) {
    set_near(table, BLOCKS, &[0, MOST_BLOCKS.into(), 65_535], random);
}

fn field_count(table: &mut File, random: &mut Random) {
    set_near(table, FIELDS, &[0, MOST_FIELDS, 65_535], random);
}

fn key_field_count(table: &mut File, random: &mut Random) {
    if has_header(table) {
        let fields = word(table, FIELDS).into();
        set_near(table, KEY_FIELDS, &[0, fields, MOST_FIELDS], random);
    }
}

fn record_count(table: &mut File, random: &mut Random) {
    if has_header(table) {
        let values = [-1, 0, i32::MIN, i32::MAX];
        let value = random.pick(&values).to_le_bytes();
        table[RECORDS..RECORDS + 4].copy_from_slice(&value);
    }
}

fn sort(table: &mut File, random: &mut Random) {
    let value = random.pick(&[1, 0x4C, 0xFF]);
    set_byte(table, SORT, value);
}

fn chain_words(table: &mut File, random: &mut Random) {
    if has_header(table) {
        let offset = random.pick(&[FIRST_BLOCK, LAST_BLOCK, FIRST_FREE]);
        let blocks = word(table, BLOCKS).into();
        set_near(table, offset, &[0, blocks, 65_535], random);
    }
}
