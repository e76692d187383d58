//! The table of memos and its MB file: every second memo in one suballocated block, the others in
//! blocks of their own.

use super::image::{image, shape, NamedField};
use crate::codes;
use crate::generate::{Entry, MbFile, Stored, TableImage};
use crate::mb::{CHUNK, ENTRIES, FIRST_CHUNK, FREE, SUBALLOCATED, TAIL};
use crate::random::Random;

/// The field of the memos, from 1.
pub const MEMO_FIELD: usize = 2;
/// How many memos there are: as many in blocks of their own as a suballocated block has entries.
const MEMOS: usize = 2 * ENTRIES as usize;
const LEADER: usize = 20;
/// Bytes of a memo in the suballocated block, where all of them fit.
const SHORT_MEMO: usize = 3 * CHUNK;
/// Bytes of a memo in a block of its own.
const LONG_MEMO: usize = 2500;

/// Code and note: 38 bytes.
const SUPPLIER: [NamedField; 2] = [
    ("Code", codes::TEXT, 8),
    ("Note", codes::MEMO, (LEADER + TAIL) as u8),
];

/// A table of memos and its MB file, with so many free units before each block of one memo.
pub fn memos(free: u16, random: &mut Random) -> (TableImage, Vec<u8>) {
    let mut file = MbFile::new(1);
    let base = file.add_block(SUBALLOCATED, 1);
    let mut number = 0;
    let table = image(shape(1, &SUPPLIER, 1), MEMOS, random, |random| {
        let note = random.bytes(if number % 2 == 0 {
            SHORT_MEMO
        } else {
            LONG_MEMO
        });
        let stored = match number % 2 {
            0 => put_short(&mut file, base, number / 2, &note),
            _ => put_long(&mut file, free, &note),
        };
        number += 1;
        [
            format!("S{number:07}").into_bytes(),
            stored.cell(&note[..LEADER]),
        ]
        .concat()
    });
    (table, file.bytes)
}

/// Puts a memo into the suballocated block, entries being used from the last one downwards.
fn put_short(file: &mut MbFile, base: usize, used: usize, note: &[u8]) -> Stored {
    let entry = Entry {
        number: ENTRIES - 1 - used as u8,
        begin: FIRST_CHUNK + (used * SHORT_MEMO / CHUNK) as u8,
        modification: 1,
    };
    file.put_entry(base, entry, note)
}

fn put_long(file: &mut MbFile, free: u16, note: &[u8]) -> Stored {
    if free > 0 {
        file.add_block(FREE, free);
    }
    file.add_own(note, 0, 1)
}
