//! The walk (document 01, "Two ways to find a key").

use super::{Index, Place, Refusal, Table};

/// What a walk found, and how many index blocks it read.
#[derive(Clone, Copy, Debug, PartialEq, Eq)]
pub struct Walked {
    /// Where the record is, if there is one.
    pub found: Option<Place>,
    /// The index blocks read.
    pub index_blocks: u8,
}

/// The record with this key that the index leads to, if there is one.
pub fn walk(table: &[u8], index: &[u8], key: &[u8]) -> Result<Walked, Refusal> {
    let table = Table::read(table)?;
    table.check_key(key)?;
    let index = Index::read(index, key.len())?;
    let mut number = index.root;
    for level in 0..index.levels {
        let Some(named) = descend(&index, number, key)? else {
            return Ok(Walked {
                found: None,
                index_blocks: level + 1,
            });
        };
        number = named;
    }
    if index.levels == 0 {
        return Ok(Walked {
            found: None,
            index_blocks: 0,
        });
    }
    Ok(Walked {
        found: find_in_block(&table, number, key)?,
        index_blocks: index.levels,
    })
}

/// The block named by the last entry whose key is at most the one sought, if there is one.
fn descend(index: &Index, number: u16, key: &[u8]) -> Result<Option<u16>, Refusal> {
    let block = index.blocks.get(number).ok_or(Refusal::Tree)?;
    let entries = block.records().ok_or(Refusal::Tree)?;
    if entries.len() == 0 {
        return Err(Refusal::Tree);
    }
    Ok(entries
        .rev()
        .map(|stored| index.entry(stored))
        .find(|entry| entry.key <= key)
        .map(|entry| entry.block))
}

/// The first record with this key in a data block, if there is one.
fn find_in_block(table: &Table, number: u16, key: &[u8]) -> Result<Option<Place>, Refusal> {
    let block = table.blocks.get(number).ok_or(Refusal::Chain)?;
    let mut records = block.records().ok_or(Refusal::Count)?;
    let place = records.position(|record| table.key(record) == key);
    Ok(place.map(|place| Place {
        block: number,
        place: place as u16,
    }))
}
