//! Blob cells for a table that was made, blank, in their leaders or in an MB file, and that file.

use super::{Entry, MbFile, Stored, TableImage};
use crate::mb::*;
use crate::random::Random;

/// The units of an MB file, at most: one of these. Then cells share the blobs that there are.
const MOST_UNITS: [usize; 16] = [2, 3, 4, 4, 6, 6, 6, 6, 8, 8, 8, 8, 8, 12, 12, 60];
/// The longest blob that an entry can state.
const LONGEST_ENTRY: usize = 0xFF * CHUNK;
/// Bytes of a blob that are filled at random; nobody judges them.
const FILLED: usize = 64;

/// Gives each blob cell of a table's records its bytes, and answers the MB file.
pub fn fill_blobs(random: &mut Random, image: &mut TableImage) -> Vec<u8> {
    let places = image.shape.blob_places();
    let mut filler = Filler::new(random);
    if places.is_empty() {
        return filler.file.bytes;
    }
    let size = image.shape.record_size();
    for block in &mut image.chain {
        for record in block.records.chunks_exact_mut(size) {
            for &(start, width) in &places {
                record[start..start + width].copy_from_slice(&filler.cell(width - TAIL));
            }
        }
    }
    filler.end()
}

/// A suballocated block that still takes blobs.
#[derive(Clone, Copy)]
struct Open {
    base: usize,
    size: usize,
    /// Entries that are not used yet: the numbers below this one.
    entries: u8,
}

/// An MB file in the making.
struct Filler<'a> {
    random: &'a mut Random,
    file: MbFile,
    most: usize,
    open: Option<Open>,
    stored: Vec<Stored>,
}

impl Filler<'_> {
    /// A file of a header block, which nobody judges and which is left out at times, and at times a
    /// free block.
    fn new(random: &mut Random) -> Filler<'_> {
        let file = match random.below(8) {
            0 => MbFile::default(),
            _ => MbFile::new(random.word()),
        };
        let mut filler = Filler {
            most: random.pick(&MOST_UNITS) * UNIT,
            random,
            file,
            open: None,
            stored: Vec::new(),
        };
        if filler.random.percent(20) {
            filler.file.add_block(FREE, 1);
        }
        filler
    }

    /// The bytes of the file, at times with some behind the last block.
    fn end(mut self) -> Vec<u8> {
        if self.random.percent(15) {
            let more = self.random.below(UNIT + 9);
            self.file.bytes.extend(self.random.bytes(more));
        }
        self.file.bytes
    }

    /// The cell of some blob, for a leader of a length.
    fn cell(&mut self, leader: usize) -> Vec<u8> {
        let mut bytes = self.random.bytes(leader);
        match self.random.below(100) {
            0..=9 => vec![0; leader + TAIL],
            10..=14 => self.random.bytes(leader + TAIL),
            15..=34 => self.in_leader(leader).cell(&bytes),
            _ => match self.longer_than(leader) {
                Some(stored) => stored.cell(&bytes),
                None => {
                    bytes.fill(0);
                    self.in_leader(leader).cell(&bytes)
                }
            },
        }
    }

    /// A blob that the leader holds, or an empty one. Its offset is not judged.
    fn in_leader(&mut self, leader: usize) -> Stored {
        let any = self.random.below(leader + 1);
        let length = self.random.pick(&[0, any, leader, leader]) as u32;
        let offset = self.random.bits() as u32;
        Stored {
            offset: self.random.pick(&[0, 0, offset, offset | 0xFF]),
            length,
            modification: self.random.word(),
        }
    }

    /// A blob that the leader can't hold: a new one where the file has room, else one that it has.
    fn longer_than(&mut self, leader: usize) -> Option<Stored> {
        let full = self.file.bytes.len() >= self.most;
        let has_entries = self.open.is_some_and(|open| open.entries > 0);
        let stored = match self.random.below(10) {
            0..=5 if has_entries || !full => self.entry(leader),
            6..=8 if !full => self.own(leader),
            _ => return self.one_of_stored(leader),
        };
        self.stored.push(stored);
        Some(stored)
    }

    /// A blob that another cell has, where it is long enough.
    fn one_of_stored(&mut self, leader: usize) -> Option<Stored> {
        if self.stored.is_empty() {
            return None;
        }
        let stored = self.random.pick(&self.stored);
        (stored.length as usize > leader).then_some(stored)
    }

    /// A new blob in a block of its own, at times just as long as the block lets it be.
    fn own(&mut self, leader: usize) -> Stored {
        let random = &mut *self.random;
        let small = random.within(leader + 1..=leader + 300);
        let large = random.within(2048..=3 * UNIT);
        let lengths = [
            leader + 1,
            small,
            large,
            UNIT - OWN_HEAD,
            UNIT,
            2 * UNIT - OWN_HEAD,
        ];
        let length = random.pick(&lengths);
        let more = random.pick(&[0, 0, 0, 0, 0, 1, 2, self.most / UNIT]) as u16;
        let blob = contents(random, length);
        self.file.add_own(&blob, more, random.word())
    }

    /// A new blob in a suballocated block, the one at hand or a new one of 1 to 3 units.
    fn entry(&mut self, leader: usize) -> Stored {
        let open = self.open.filter(|open| open.entries > 0);
        let open = open.unwrap_or_else(|| self.open_block());
        let random = &mut *self.random;
        let entries = open.entries - 1;
        self.open = Some(Open { entries, ..open });
        let most = LONGEST_ENTRY.min(open.size - usize::from(FIRST_CHUNK) * CHUNK);
        let small = random.within(leader + 1..=leader + 100);
        let lengths = [leader + 1, small, small, small, small | 15, most, most - 1];
        let length = random
            .pick(&lengths)
            .next_multiple_of(random.pick(&[1, 1, CHUNK]));
        let last = ((open.size - length) / CHUNK).min(0xFF) as u8;
        let any = random.within(FIRST_CHUNK.into()..=last.into()) as u8;
        let entry = Entry {
            number: entries,
            begin: random.pick(&[any, any, FIRST_CHUNK, last]),
            modification: random.word(),
        };
        let blob = contents(random, length);
        self.file.put_entry(open.base, entry, &blob)
    }

    fn open_block(&mut self) -> Open {
        let units = self.random.pick(&[1, 1, 1, 1, 2, 3]);
        Open {
            base: self.file.add_block(SUBALLOCATED, units),
            size: usize::from(units) * UNIT,
            entries: self.random.pick(&[ENTRIES, ENTRIES, 1, 9]),
        }
    }
}

/// The bytes of a blob, of which the first are random.
fn contents(random: &mut Random, length: usize) -> Vec<u8> {
    let mut blob = vec![random.byte(); length];
    random.fill(&mut blob[..length.min(FILLED)]);
    blob
}
