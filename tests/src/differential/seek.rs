//! Which keys to look up: those of the table, their neighbours, and keys of no table.

use crate::model::Table;
use crate::random::Random;

/// Keys taken from a table whose pair is accepted: all of them, but for the largest tables.
const MOST_KEYS: usize = 3000;
/// Keys taken from another table.
const FEW_KEYS: usize = 6;

/// The keys to look up in a table. `every` asks for every key it holds.
pub fn keys_to_seek(table: &[u8], every: bool, random: &mut Random) -> Vec<Vec<u8>> {
    let Ok(table) = Table::read(table) else {
        return unrelated_keys(random.within(1..=12), random);
    };
    let mut held = held_keys(&table, every);
    let most = if every { MOST_KEYS } else { FEW_KEYS };
    if held.len() > most {
        random.shuffle(&mut held);
        held.truncate(most);
    }
    let mut keys = unrelated_keys(table.key_length(), random);
    for key in held {
        add_neighbours(&mut keys, key, random);
        keys.push(key.to_vec());
    }
    keys
}

/// The keys of the used chain, or of every block that has a good count.
fn held_keys<'a>(table: &Table<'a>, used_only: bool) -> Vec<&'a [u8]> {
    let key = |record: &'a [u8]| &record[..table.key_length()];
    if used_only {
        let records = table.used_blocks().filter_map(|(_, block)| block.records());
        return records.flatten().map(key).collect();
    }
    let blocks = (1..=table.header.blocks).take(64);
    let records = blocks.filter_map(|number| table.blocks.get(number)?.records());
    records.flatten().map(key).collect()
}

/// Keys that are one byte off a held key, or at times one byte longer or shorter.
fn add_neighbours(keys: &mut Vec<Vec<u8>>, key: &[u8], random: &mut Random) {
    let Some((&last, before)) = key.split_last() else {
        return;
    };
    for byte in [last.wrapping_add(1), last.wrapping_sub(1)] {
        keys.push([before, &[byte]].concat());
    }
    if random.percent(10) {
        keys.push([key, &[0]].concat());
        keys.push(before.to_vec());
    }
}

/// Keys that no table need hold: the least, the greatest, none at all, random ones.
fn unrelated_keys(length: usize, random: &mut Random) -> Vec<Vec<u8>> {
    vec![
        vec![0; length],
        vec![0xFF; length],
        Vec::new(),
        random.bytes(length),
        random.bytes(length),
        random.bytes(length + 1),
    ]
}
