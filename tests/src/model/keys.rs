//! The order of keys, rule 10 (document 01, "Key rule").

use super::Table;

/// Whether the keys strictly ascend over all records in chain order. The counts are good.
pub fn ascend(table: &Table) -> bool {
    let mut previous: Option<&[u8]> = None;
    for (_, block) in table.used_blocks() {
        for record in block.records().into_iter().flatten() {
            let key = table.key(record);
            if previous.is_some_and(|before| before >= key) {
                return false;
            }
            previous = Some(key);
        }
    }
    true
}
