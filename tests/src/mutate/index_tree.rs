//! Faults in an index's tree, rule 27.

use super::index_header::{has_header, levels, root};
use super::{near, Fault, File};
use crate::layout::*;
use crate::random::Random;

/// The faults of this file.
pub const FAULTS: &[Fault] = &[
    root,
    levels,
    entry_block,
    entry_block,
    entry_key,
    swapped_entries,
    repeated_entry,
    block_count,
    no_entry,
    lost_entry,
    swapped_blocks,
];

/// A block of an index with its entries.
struct Held {
    head: usize,
    entry_size: usize,
    entries: usize,
    blocks: usize,
    block_size: usize,
}

impl Held {
    /// A random block that has entries.
    fn any(index: &[u8], random: &mut Random) -> Option<Held> {
        if !has_header(index) {
            return None;
        }
        let blocks = usize::from(word(index, BLOCKS));
        let entry_size = usize::from(word(index, RECORD_SIZE));
        let block_size = usize::from(index[BLOCK_UNITS]) * UNIT;
        let header_size = usize::from(word(index, HEADER_SIZE));
        let whole = index.len() == header_size + blocks * block_size;
        if !whole || blocks == 0 || entry_size <= ENTRY_TAIL || block_size == 0 {
            return None;
        }
        let head = header_size + random.below(blocks) * block_size;
        let last = usize::from(word(index, head + LAST_RECORD));
        (last + entry_size <= block_size - BLOCK_HEAD).then_some(Held {
            head,
            entry_size,
            entries: last / entry_size + 1,
            blocks,
            block_size,
        })
    }

    fn entry(&self, place: usize) -> usize {
        self.head + BLOCK_HEAD + place * self.entry_size
    }

    fn any_entry(&self, random: &mut Random) -> usize {
        self.entry(random.below(self.entries))
    }
}

/// An entry that names another block, or one outside of the file.
fn entry_block(index: &mut File, random: &mut Random) {
    let Some(held) = Held::any(index, random) else {
        return;
    };
    let stored = held.any_entry(random) + held.entry_size - ENTRY_TAIL;
    let inside = random.within(1..=held.blocks) as u16;
    let own = u16::from_be_bytes([index[stored], index[stored + 1]]) ^ COMPLEMENT;
    let choices = [
        0,
        inside,
        held.blocks as u16 + 1,
        own.wrapping_add(1),
        own.wrapping_sub(1),
        own ^ COMPLEMENT,
        own.swap_bytes(),
    ];
    let named = random.pick(&choices) ^ COMPLEMENT;
    index[stored..stored + 2].copy_from_slice(&named.to_be_bytes());
}

fn entry_key(index: &mut File, random: &mut Random) {
    let Some(held) = Held::any(index, random) else {
        return;
    };
    let key_length = held.entry_size - ENTRY_TAIL;
    let byte = random.pick(&[0, key_length - 1]);
    let place = held.any_entry(random) + byte;
    index[place] = index[place].wrapping_add(random.pick(&[1, 0x80, 0xFF]));
}

fn swapped_entries(index: &mut File, random: &mut Random) {
    let Some(held) = Held::any(index, random) else {
        return;
    };
    let one = held.any_entry(random);
    let other = held.any_entry(random);
    for byte in 0..held.entry_size {
        index.swap(one + byte, other + byte);
    }
}

fn repeated_entry(index: &mut File, random: &mut Random) {
    let Some(held) = Held::any(index, random) else {
        return;
    };
    let one = held.any_entry(random);
    let other = held.any_entry(random);
    index.copy_within(one..one + held.entry_size, other);
}

fn block_count(index: &mut File, random: &mut Random) {
    let Some(held) = Held::any(index, random) else {
        return;
    };
    let last = (held.entries - 1) * held.entry_size;
    let capacity = (held.block_size - BLOCK_HEAD) / held.entry_size;
    let limits = [last, last + held.entry_size, capacity * held.entry_size];
    let value = near(&limits, random);
    put_word(index, held.head + LAST_RECORD, value);
}

fn no_entry(index: &mut File, random: &mut Random) {
    let Some(held) = Held::any(index, random) else {
        return;
    };
    let none = (held.entry_size as u16).wrapping_neg();
    put_word(index, held.head + LAST_RECORD, none);
}

fn lost_entry(index: &mut File, random: &mut Random) {
    let Some(held) = Held::any(index, random) else {
        return;
    };
    let last = (held.entries - 1) * held.entry_size;
    let value = (last as u16).wrapping_sub(held.entry_size as u16);
    put_word(index, held.head + LAST_RECORD, value);
}

fn swapped_blocks(index: &mut File, random: &mut Random) {
    let Some(one) = Held::any(index, random) else {
        return;
    };
    let Some(other) = Held::any(index, random) else {
        return;
    };
    for byte in 0..one.block_size {
        index.swap(one.head + byte, other.head + byte);
    }
}
