//! The scan (document 01, "Two ways to find a key").

use super::{table_check, Refusal};

/// Where a record stands.
#[derive(Clone, Copy, Debug, PartialEq, Eq)]
pub struct Place {
    /// Its block, from 1.
    pub block: u16,
    /// Its place in the block, from 0.
    pub place: u16,
}

/// The record with this key in a table that passes the table check, if there is one.
pub fn scan(bytes: &[u8], key: &[u8], marks: &mut [u8]) -> Result<Option<Place>, Refusal> {
    let table = table_check(bytes, marks)?;
    table.check_key(key)?;
    for (block, held) in table.used_blocks() {
        let mut records = held.records().ok_or(Refusal::Count)?;
        if let Some(place) = records.position(|record| table.key(record) == key) {
            let place = place as u16;
            return Ok(Some(Place { block, place }));
        }
    }
    Ok(None)
}
