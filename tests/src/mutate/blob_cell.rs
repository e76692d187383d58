//! Faults in the numbers of a blob's cell: its offset and its length.

use super::blobs::{Broken, Fault};
use crate::mb::*;
use crate::random::Random;

/// Bytes of a block's head and entries, copied where an offset leads.
const COPIED: usize = SUBALLOCATED_HEAD;

/// The faults of this file.
pub const FAULTS: &[Fault] = &[
    number,
    off_multiple,
    far_offset,
    base_zero,
    inside_a_block,
    cell_length,
    near_the_leader,
    zero_length,
];

/// Another entry's number, one that no entry has, or that of a block of its own; at times with the
/// entry standing where that number would lead.
fn number(broken: &mut Broken, random: &mut Random) {
    let any = random.byte();
    let near = random.pick(&[0x3F, 0x40, 0x41, 0x7F, 0x80, 0xFE, OWN_NUMBER]);
    let number = random.pick(&[any, near, near]);
    let to = broken.base + entry_start(number);
    if let Some(entry) = broken.entry().filter(|_| to + ENTRY <= broken.mb.len()) {
        if random.percent(70) {
            broken.mb.copy_within(entry..entry + ENTRY, to);
        }
    }
    broken.table[broken.tail] = number;
}

/// An offset off a multiple of 4,096, at times with a fitting head at that place.
fn off_multiple(broken: &mut Broken, random: &mut Random) {
    let beside = 0x100 << random.below(4);
    let (base, end) = (broken.base, broken.base + COPIED);
    if random.percent(50) && end + beside <= broken.mb.len() {
        broken.mb.copy_within(base..end, base + beside);
    }
    let offset = (base + beside) as u32 | u32::from(broken.number);
    broken.put_offset(offset);
}

/// An offset far beyond the file. Some come back into it where they are cut or summed up in 32
/// bits.
fn far_offset(broken: &mut Broken, random: &mut Random) {
    let base = broken.base as u32;
    let behind = (broken.mb.len() & !(UNIT - 1)) as u32;
    let far = [
        0xFFFF_F000,
        0x8000_0000 | base,
        0x0100_0000 | base,
        base.wrapping_neg() & !0xFFF,
        behind,
        behind.wrapping_add(UNIT as u32),
    ];
    let base = random.pick(&far);
    broken.put_offset(base | u32::from(broken.number));
}

/// The base 0, at times with the block's head and entries standing there.
fn base_zero(broken: &mut Broken, random: &mut Random) {
    let (base, end) = (broken.base, broken.base + COPIED);
    if random.percent(60) && end <= broken.mb.len() {
        broken.mb.copy_within(base..end, 0);
    }
    broken.put_offset(broken.number.into());
}

/// The block's head and entries, copied to any multiple of 4,096.
fn inside_a_block(broken: &mut Broken, random: &mut Random) {
    let (base, end) = (broken.base, broken.base + COPIED);
    let units = broken.mb.len() / UNIT;
    if units == 0 || end > broken.mb.len() {
        return;
    }
    let to = random.below(units) * UNIT;
    broken.mb.copy_within(base..end, to);
    broken.put_offset(to as u32 | u32::from(broken.number));
}

fn cell_length(broken: &mut Broken, random: &mut Random) {
    let own = broken.length();
    let change = random.pick(&[
        1,
        1,
        u32::MAX,
        u32::MAX,
        16,
        1 << 8,
        1 << 16,
        1 << 24,
        1 << 31,
    ]);
    broken.put_length(own.wrapping_add(change));
}

/// A length at the leader's size and beside it, at times one that the block states.
fn near_the_leader(broken: &mut Broken, random: &mut Random) {
    let beside = random.pick(&[0, 1, 1, 2]);
    let length = (broken.leader + beside).saturating_sub(random.below(2)) as u32;
    broken.put_length(length);
    if random.percent(60) {
        broken.state(length);
    }
}

/// A length of 0, in a cell with other bytes or with one other byte or none.
fn zero_length(broken: &mut Broken, random: &mut Random) {
    if random.percent(60) {
        let start = broken.tail - broken.leader;
        broken.table[start..broken.tail + TAIL].fill(0);
        let place = start + random.below(broken.leader + TAIL);
        broken.table[place] = random.pick(&[0, 1, 0x80]);
    }
    broken.put_length(0);
}
