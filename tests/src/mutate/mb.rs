//! Faults in an MB file: in the head of a blob's block, in its entry, in all of it.

use super::blobs::{Broken, Fault};
use crate::layout::{put_word, word};
use crate::mb::*;
use crate::random::Random;

/// The faults of this file.
pub const FAULTS: &[Fault] = &[
    kind,
    units,
    end_of_file,
    cut,
    stated_length,
    up_to_the_end,
    last_refitted,
    no_chunks,
    begin,
    modification,
    one_byte,
    rubbish,
    empty,
];

fn kind(broken: &mut Broken, random: &mut Random) {
    if let Some(block) = broken.block() {
        let any = random.byte();
        block[0] = random.pick(&[HEADER, 1, OWN, SUBALLOCATED, FREE, 5, 0xFF, any]);
    }
}

fn units(broken: &mut Broken, random: &mut Random) {
    if let Some(block) = broken.block() {
        let own = word(block, UNITS);
        let beside = random.pick(&[own.wrapping_sub(1), own.wrapping_add(1)]);
        let any = random.pick(&[0x0100, 0x8000, u16::MAX]);
        put_word(block, UNITS, random.pick(&[0, 0, beside, beside, any]));
    }
}

/// A file that ends with the block, or one byte before or behind its end.
fn end_of_file(broken: &mut Broken, random: &mut Random) {
    let end = broken.base + broken.size();
    if end <= broken.mb.len() + UNIT {
        broken.mb.resize(end, 0);
        match random.below(4) {
            0 => {}
            1 => broken.mb.push(0),
            _ => drop(broken.mb.pop()),
        }
    }
}

/// A file that ends somewhere in the block, often in its head.
fn cut(broken: &mut Broken, random: &mut Random) {
    let any = random.below(UNIT);
    let length = random.pick(&[0, 1, 2, 3, OWN_HEAD, FIRST_ENTRY, any, any]);
    broken.mb.truncate(broken.base + length);
}

/// A length in the head or the entry that is off by a little.
fn stated_length(broken: &mut Broken, random: &mut Random) {
    let up = random.percent(50);
    let beside = |byte: u8| {
        if up {
            byte.wrapping_add(1)
        } else {
            byte.wrapping_sub(1)
        }
    };
    if let Some(entry) = broken.entry() {
        let byte = entry + random.pick(&[ENTRY_CHUNKS, ENTRY_LAST, ENTRY_LAST]);
        broken.mb[byte] = beside(broken.mb[byte]);
    } else if let Some(block) = broken.block() {
        let byte = OWN_LENGTH + random.pick(&[0, 0, 0, 1, 2, 3]);
        block[byte] = beside(block[byte]);
    }
}

/// A blob that ends with its block, or one byte behind it.
fn up_to_the_end(broken: &mut Broken, random: &mut Random) {
    let size = broken.size();
    let beyond = random.below(2);
    if broken.is_own() {
        let length = (size.saturating_sub(OWN_HEAD) + beyond) as u32;
        broken.state(length);
        broken.put_length(length);
        return;
    }
    let Some(entry) = broken.entry() else { return };
    let begin = random.within(0xF0..=0xFF);
    broken.mb[entry] = begin as u8;
    let length = (size.saturating_sub(begin * CHUNK) + beyond) as u32;
    broken.state(length);
    broken.put_length(length);
}

/// A last chunk of 0, 1, 16, 17 or more bytes, with the length that the sum would give.
fn last_refitted(broken: &mut Broken, random: &mut Random) {
    let Some(entry) = broken.entry() else { return };
    let last = random.pick(&[0, 0, 1, 0x10, 0x11, 0x11, 0x20, 0xFF]);
    broken.mb[entry + ENTRY_LAST] = last;
    let chunks = u32::from(broken.mb[entry + ENTRY_CHUNKS]);
    broken.put_length((chunks.max(1) - 1) * CHUNK as u32 + u32::from(last));
}

/// An entry of no chunks, with what a sum of fewer or more bits would give.
fn no_chunks(broken: &mut Broken, random: &mut Random) {
    let Some(entry) = broken.entry() else { return };
    broken.mb[entry + ENTRY_CHUNKS] = 0;
    let last: u32 = random.pick(&[1, 7, 0x10, 0x11]);
    broken.mb[entry + ENTRY_LAST] = last as u8;
    let sums = [
        last,
        last.wrapping_sub(16),
        0xFF * 16 + last,
        0xFFF0 + last,
        0xF0 + last,
    ];
    broken.put_length(random.pick(&sums));
}

/// An entry whose blob begins among the entries, just behind them, or anywhere.
fn begin(broken: &mut Broken, random: &mut Random) {
    let Some(entry) = broken.entry() else { return };
    let any = random.byte();
    let limit = FIRST_CHUNK;
    broken.mb[entry] = random.pick(&[0, 1, limit - 1, limit - 1, limit, 0xFF, any]);
}

/// Other modification numbers, in the cell and in the block or entry.
fn modification(broken: &mut Broken, random: &mut Random) {
    let (cell, stated) = (random.word(), random.word());
    put_word(broken.table, broken.tail + TAIL_MODIFICATION, cell);
    if let Some(entry) = broken.entry() {
        put_word(broken.mb, entry + ENTRY_MODIFICATION, stated);
    } else if let Some(block) = broken.block() {
        put_word(block, OWN_MODIFICATION, stated);
    }
}

/// One byte of the cell's ten, of the block's head or of the entry, changed in one way.
fn one_byte(broken: &mut Broken, random: &mut Random) {
    let any = random.byte();
    let bit = 1 << random.below(8);
    let change = |byte: u8| match any % 4 {
        0 => any,
        1 => byte.wrapping_add(1),
        2 => byte.wrapping_sub(1),
        _ => byte ^ bit,
    };
    let (place, in_mb) = match (random.below(3), broken.entry()) {
        (0, _) => (broken.tail + random.below(TAIL), false),
        (1, Some(entry)) => (entry + random.below(ENTRY), true),
        _ => (broken.base + random.below(OWN_HEAD), true),
    };
    let file = if in_mb {
        &mut *broken.mb
    } else {
        &mut *broken.table
    };
    if let Some(byte) = file.get_mut(place) {
        *byte = change(*byte);
    }
}

/// Random bytes in the block's head and entries, in the cell, or in the whole file.
fn rubbish(broken: &mut Broken, random: &mut Random) {
    match random.below(4) {
        0 => random.fill(broken.mb),
        1 => random.fill(&mut broken.table[broken.tail..broken.tail + TAIL]),
        _ => {
            if let Some(block) = broken.block() {
                let length = block.len().min(SUBALLOCATED_HEAD);
                random.fill(&mut block[..length]);
            }
        }
    }
}

fn empty(broken: &mut Broken, _: &mut Random) {
    broken.mb.clear();
}
