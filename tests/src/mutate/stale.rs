//! Tables that changed after their index was made.

use crate::generate::{TableImage, UsedBlock};
use crate::random::Random;

/// The table with one record less; nothing where it has none.
pub fn with_record_deleted(image: &TableImage, random: &mut Random) -> Option<TableImage> {
    let size = image.shape.record_size();
    let mut changed = image.clone();
    let filled = changed
        .chain
        .iter_mut()
        .filter(|block| !block.records.is_empty());
    let mut filled: Vec<_> = filled.collect();
    if filled.is_empty() {
        return None;
    }
    let block = random.below(filled.len());
    let records = &mut filled[block].records;
    let any = random.below(records.len() / size) * size;
    let start = random.pick(&[0, any]);
    records.drain(start..start + size);
    Some(changed)
}

/// The table with one record more, just before another; nothing where none fits.
pub fn with_record_inserted(image: &TableImage, random: &mut Random) -> Option<TableImage> {
    let shape = &image.shape;
    let (size, key_length) = (shape.record_size(), shape.key_length());
    let mut changed = image.clone();
    let room = shape.capacity() * size;
    let with_room =
        |block: &&mut UsedBlock| !block.records.is_empty() && block.records.len() < room;
    let mut open: Vec<_> = changed.chain.iter_mut().filter(with_room).collect();
    if open.is_empty() || key_length == 0 {
        return None;
    }
    let block = random.below(open.len());
    let records = &mut open[block].records;
    let any = random.below(records.len() / size) * size;
    let start = random.pick(&[0, any]);
    let mut record = records[start..start + size].to_vec();
    let last = &mut record[key_length - 1];
    *last = last.checked_sub(1)?;
    records.splice(start..start, record);
    Some(changed)
}
