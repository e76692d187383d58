//! The pair check (document 01, "Pair").

use super::{table_check, Index, Refusal};

/// Checks that the table is good, the index is good, and the index is the table's.
pub fn pair_check(table: &[u8], index: &[u8], marks: &mut [u8]) -> Result<(), Refusal> {
    let table = table_check(table, marks)?;
    if table.header.key_fields == 0 {
        return Err(Refusal::Argument);
    }
    let index = Index::read(index, table.key_length())?;
    let filled = table.used_blocks().filter_map(|(number, block)| {
        let first = block.first_record()?;
        Some((number, table.key(first)))
    });
    let mut reading = Reading {
        index: &index,
        filled,
    };
    if index.root != 0 && reading.block(index.root, index.levels).is_none() {
        return Err(Refusal::Tree);
    }
    match reading.filled.next() {
        None => Ok(()),
        Some(_) => Err(Refusal::Tree),
    }
}

/// A reading of the tree from left to right, beside the used blocks that hold records. Each level 1
/// entry takes one of them, so that blocks which name each other soon run out of matches.
struct Reading<'a, Filled> {
    index: &'a Index<'a>,
    filled: Filled,
}

impl<'a, Filled: Iterator<Item = (u16, &'a [u8])>> Reading<'a, Filled> {
    /// The first key of a block that fits at a level. At most eight levels call each other.
    fn block(&mut self, number: u16, level: u8) -> Option<&'a [u8]> {
        if level == 0 {
            let (expected, first) = self.filled.next()?;
            return (expected == number).then_some(first);
        }
        let index = self.index;
        let mut first = None;
        for stored in index.blocks.get(number)?.records()? {
            let entry = index.entry(stored);
            if self.block(entry.block, level - 1)? != entry.key {
                return None;
            }
            first = first.or(Some(entry.key));
        }
        first
    }
}
