//! The MB file of the notes: a header block, a suballocated one, a free one, and one of a single blob.

use crate::generate::{Entry, MbFile, Stored};
use crate::mb::{entry_start, CHUNK, ENTRIES, ENTRY_LAST, FIRST_CHUNK, FREE, SUBALLOCATED};

/// The modification number of the first blob, and how many there were.
const FIRST_MODIFICATION: u16 = 0x0C;
const MODIFICATIONS: u16 = 0x12;

/// The MB file, with a place in its suballocated block for the next blob.
pub struct Memos {
    file: MbFile,
    base: usize,
    next: Entry,
}

impl Memos {
    /// A header block and a suballocated one. Entries are used from the last one downwards.
    pub fn new() -> Memos {
        let mut file = MbFile::new(MODIFICATIONS);
        Memos {
            base: file.add_block(SUBALLOCATED, 1),
            file,
            next: Entry {
                number: ENTRIES - 1,
                begin: FIRST_CHUNK,
                modification: FIRST_MODIFICATION,
            },
        }
    }

    /// The cell of a blob, which goes into the suballocated block where the leader can't hold it.
    pub fn cell(&mut self, leader: usize, blob: &[u8]) -> Vec<u8> {
        if blob.len() <= leader {
            return in_leader(leader, blob);
        }
        let stored = self.add_entry(blob);
        stored.cell(&blob[..leader])
    }

    /// The bytes of the file.
    pub fn into_bytes(self) -> Vec<u8> {
        self.file.bytes
    }

    fn add_entry(&mut self, blob: &[u8]) -> Stored {
        let stored = self.file.put_entry(self.base, self.next, blob);
        self.next.number -= 1;
        self.next.begin += blob.len().div_ceil(CHUNK) as u8;
        self.next.modification += 1;
        stored
    }

    /// Puts a memo into the suballocated block and deletes it.
    pub fn add_deleted(&mut self, note: &[u8]) {
        let entry = self.base + entry_start(self.next.number);
        self.add_entry(note);
        self.file.bytes[entry + ENTRY_LAST] = 0;
    }

    /// The cell of a note in a block of its own, which stands behind a free one.
    pub fn cell_of_own(&mut self, leader: usize, note: &[u8]) -> Vec<u8> {
        self.file.add_block(FREE, 1);
        let modification = self.next.modification;
        self.next.modification += 1;
        let stored = self.file.add_own(note, 0, modification);
        stored.cell(&note[..leader])
    }
}

/// The cell of a blob that its leader holds; one of no bytes is blank.
fn in_leader(leader: usize, blob: &[u8]) -> Vec<u8> {
    let mut bytes = blob.to_vec();
    bytes.resize(leader, 0);
    let length = blob.len() as u32;
    let modification = if blob.is_empty() { 0 } else { 1 };
    let held = Stored {
        offset: 0,
        length,
        modification,
    };
    held.cell(&bytes)
}
