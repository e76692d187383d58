//! Files with one thing broken or a few, each rule of documents 01 and 02 aimed at by name.

mod blob_cell;
mod blobs;
mod bytes;
mod chain;
mod counts;
mod fields;
mod header;
mod hostile;
mod index_header;
mod index_tree;
mod keys;
mod mb;
mod stale;

use crate::random::Random;

pub use blobs::{blob_faults, break_blob, break_by, At};
pub use hostile::{hollow_index, hostile_index};
pub use stale::{with_record_deleted, with_record_inserted};

/// The bytes of a file, which a fault may change, cut or extend.
pub type File = Vec<u8>;

/// One way to break a file. It may leave a file as it is where it finds nothing to break.
pub type Fault = fn(&mut File, &mut Random);

const TABLE_FAULTS: &[&[Fault]] = &[
    header::FAULTS,
    fields::FAULTS,
    chain::FAULTS,
    counts::FAULTS,
    keys::FAULTS,
    bytes::FAULTS,
];
const INDEX_FAULTS: &[&[Fault]] = &[
    index_header::FAULTS,
    index_tree::FAULTS,
    index_tree::FAULTS,
    bytes::FAULTS,
];

/// Breaks one thing in a table, at times two.
pub fn break_table(table: &mut File, random: &mut Random) {
    break_some(TABLE_FAULTS, table, random);
}

/// Breaks one thing in an index, at times two.
pub fn break_index(index: &mut File, random: &mut Random) {
    break_some(INDEX_FAULTS, index, random);
}

fn break_some(faults: &[&[Fault]], file: &mut File, random: &mut Random) {
    let count = random.pick(&[1, 1, 1, 1, 2]);
    for _ in 0..count {
        let aim = random.pick(faults);
        let fault = random.pick(aim);
        fault(file, random);
    }
}

/// A number near one of some limits.
fn near(limits: &[usize], random: &mut Random) -> u16 {
    let limit = random.pick(limits) as u16;
    limit.wrapping_add(random.pick(&[0, 1, u16::MAX]))
}
