//! Which blocks, places and fields to ask for: those of the table, and numbers that no table has.

use crate::calls::expected::Read;
use crate::model::Table;
use crate::random::Random;

/// Blocks, places and fields that a table is taken to have where it cannot be read.
const UNREAD: usize = 3;
/// Bytes of a stored type and width, by which a field's number may be multiplied.
const STORED_FIELD: usize = 2;
/// How often a block with records is looked for.
const TRIES: usize = 3;

/// A field, which the table has most often.
pub fn any_field(read: &Read, random: &mut Random) -> usize {
    let fields = read.as_ref().map_or(UNREAD, |table| table.header.fields);
    if random.percent(85) {
        return random.within(1..=fields);
    }
    stray(fields, STORED_FIELD, random)
}

/// A field, most often one of these.
pub fn any_of(fields: &[usize], read: &Read, random: &mut Random) -> usize {
    if fields.is_empty() || random.percent(6) {
        return any_field(read, random);
    }
    random.pick(fields)
}

/// A block and a place, which the table has most often.
pub fn any_record(read: &Read, random: &mut Random) -> (usize, usize) {
    let Ok(table) = read else {
        return (stray(UNREAD, 1, random), stray(UNREAD, 1, random));
    };
    let block = any_block(table, random);
    let held = u16::try_from(block)
        .ok()
        .and_then(|number| table.blocks.get(number));
    let count = held.and_then(|block| block.record_count()).unwrap_or(1);
    let place = match count {
        1.. if random.percent(88) => random.below(count),
        _ => stray(count, table.header.record_size, random),
    };
    (block, place)
}

/// A block, rather one that holds records.
fn any_block(table: &Table, random: &mut Random) -> usize {
    let blocks = table.header.blocks;
    if blocks == 0 || random.percent(10) {
        return stray(blocks.into(), table.header.block_size, random);
    }
    let mut number = 0;
    for _ in 0..TRIES {
        number = random.within(1..=blocks.into()) as u16;
        let held = table.blocks.get(number);
        if held.is_some_and(|block| block.first_record().is_some()) {
            break;
        }
    }
    number.into()
}

/// A number at a limit or far beyond it. Some come into range where they are cut to fewer bits, or
/// multiplied by a size without a look at the overflow.
fn stray(most: usize, size: usize, random: &mut Random) -> usize {
    let inside = random.within(0..=most);
    let overflowing = usize::MAX / size;
    let choices = [
        0,
        most,
        most + 1,
        most + 2,
        65_535,
        65_536,
        usize::MAX,
        usize::MAX - inside,
        inside + (1 << 8),
        inside + (1 << 16),
        inside + (1 << 32),
        inside + (1 << random.within(8..=63)),
        overflowing - inside.min(overflowing),
        overflowing.wrapping_add(1 + inside),
        random.bits() as usize,
    ];
    random.pick(&choices)
}
