//! Record counts, rule 9 (document 01, "Count rules").

use super::Table;

/// Whether every used block's count is good and they add up to the header's.
pub fn add_up(table: &Table) -> bool {
    let mut records = 0;
    for (_, block) in table.used_blocks() {
        match block.record_count() {
            Some(count) => records += count as u64,
            None => return false,
        }
    }
    records == u64::from(table.header.records)
}
