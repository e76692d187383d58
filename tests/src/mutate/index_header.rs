//! Faults in an index's header, rules 21 to 26.

use super::{near, Fault, File};
use crate::layout::*;
use crate::random::Random;

/// The faults of this file.
pub const FAULTS: &[Fault] = &[
    file_type,
    version,
    record_size,
    header_size,
    block_units,
    block_units_refitted,
    blocks,
    root,
    levels,
];

/// Whether an index is long enough for its header's numbers.
pub fn has_header(index: &[u8]) -> bool {
    index.len() >= LEAST_INDEX
}

fn set_near(index: &mut [u8], offset: usize, limits: &[usize], random: &mut Random) {
    if has_header(index) {
        let own = word(index, offset).into();
        let limits = [limits, &[own]].concat();
        put_word(index, offset, near(&limits, random));
    }
}

fn set_byte(index: &mut [u8], offset: usize, value: u8) {
    if has_header(index) {
        index[offset] = value;
    }
}

fn file_type(index: &mut File, random: &mut Random) {
    let value = random.pick(&[0, 2, 3, 255]);
    set_byte(index, FILE_TYPE, value);
}

fn version(index: &mut File, random: &mut Random) {
    let value = random.pick(&[0, 2, 3, 0x0B, 0x0C, 0xFF]);
    set_byte(index, VERSION, value);
}

fn record_size(index: &mut File, random: &mut Random) {
    set_near(index, RECORD_SIZE, &[0, ENTRY_TAIL, 1018, 4090], random);
}

fn header_size(index: &mut File, random: &mut Random) {
    set_near(index, HEADER_SIZE, &[0, LEAST_INDEX, 65_535], random);
}

fn block_units(index: &mut File, random: &mut Random) {
    let value = random.pick(&[0, 1, 2, 3, 4, 5, 255]);
    set_byte(index, BLOCK_UNITS, value);
}

/// Another block size with the length that fits it, so that only the size itself is judged.
fn block_units_refitted(index: &mut File, random: &mut Random) {
    let units = random.within(0..=5);
    set_byte(index, BLOCK_UNITS, units as u8);
    if has_header(index) {
        let header_size = usize::from(word(index, HEADER_SIZE));
        let blocks = usize::from(word(index, BLOCKS)).min(300);
        index.resize(header_size.max(LEAST_INDEX) + blocks * units * UNIT, 0);
    }
}

fn blocks(index: &mut File, random: &mut Random) {
    set_near(index, BLOCKS, &[0, MOST_BLOCKS.into(), 65_535], random);
}

/// Another root, which may be a block of the file.
pub fn root(index: &mut File, random: &mut Random) {
    if has_header(index) {
        let blocks = word(index, BLOCKS).into();
        set_near(index, ROOT, &[0, 1, blocks, blocks / 2, 65_535], random);
    }
}

/// Other levels, which may be permitted ones.
pub fn levels(index: &mut File, random: &mut Random) {
    if has_header(index) {
        let own = index[LEVELS];
        let beside = random.pick(&[own.wrapping_sub(1), own.wrapping_add(1)]);
        index[LEVELS] = random.pick(&[beside, beside, 0, 1, 8, 9, 255]);
    }
}
