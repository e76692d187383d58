//! Faults in record counts, rule 9.

use super::{Fault, File};
use crate::layout::*;
use crate::model::Table;
use crate::random::Random;

/// The faults of this file.
pub const FAULTS: &[Fault] = &[block_count, block_count_refitted, header_count];

/// Sets a block's third word near one of its limits, and answers whether it could.
fn set_count(table: &mut [u8], random: &mut Random) -> Option<()> {
    let header = Table::read(table).ok()?.header;
    let blocks = usize::from(header.blocks);
    let number = random.below(blocks.max(1));
    if blocks == 0 {
        return None;
    }
    let size = header.record_size as i32;
    let capacity = ((header.block_size - BLOCK_HEAD) / header.record_size) as i32;
    let inside = random.within(0..=capacity as usize) as i32;
    let limits = [
        -size,
        -2 * size,
        0,
        size,
        inside * size,
        (capacity - 1) * size,
        capacity * size,
        i16::MAX.into(),
        i16::MIN.into(),
    ];
    let value = random.pick(&limits) + random.pick(&[0, 0, 1, -1]);
    let head = header.header_size + number * header.block_size;
    put_word(table, head + LAST_RECORD, value as u16);
    Some(())
}

fn block_count(table: &mut File, random: &mut Random) {
    set_count(table, random);
}

/// A block's count with the header's changed to fit, so that only the block's own is judged.
fn block_count_refitted(table: &mut File, random: &mut Random) {
    if set_count(table, random).is_none() {
        return;
    }
    let Ok(read) = Table::read(table) else { return };
    let counts = read
        .used_blocks()
        .filter_map(|(_, block)| block.record_count());
    let records = counts.sum::<usize>() as i32;
    table[RECORDS..RECORDS + 4].copy_from_slice(&records.to_le_bytes());
}

fn header_count(table: &mut File, random: &mut Random) {
    let Ok(read) = Table::read(table) else { return };
    let own = read.header.records as i32;
    let value = own.saturating_add(random.pick(&[-1, 1, 256, 65_536]));
    table[RECORDS..RECORDS + 4].copy_from_slice(&value.to_le_bytes());
}
