//! Indexes that no table has: full of entries that name each other, or with none at all.

use crate::generate::{IndexImage, IndexShape};
use crate::layout::*;
use crate::random::Random;

/// Up to three full blocks, every entry with one key and naming one of them, at up to eight levels.
pub fn hostile_index(random: &mut Random, key: &[u8]) -> Option<IndexImage> {
    let shape = IndexShape {
        version: 0x09,
        units: random.pick(&[1, 2, 4]),
        header_size: 88,
        key_length: key.len(),
    };
    if shape.capacity() == 0 || key.is_empty() {
        return None;
    }
    let blocks = random.within(1..=3);
    let shared = random.within(1..=blocks) as u16;
    let scattered = random.percent(50);
    let mut entry = |_| {
        let named = random.within(1..=blocks) as u16;
        (key.to_vec(), if scattered { named } else { shared })
    };
    let mut block = |_| (0..shape.capacity()).map(&mut entry).collect();
    let blocks = (0..blocks).map(&mut block).collect();
    Some(IndexImage {
        shape,
        root: shared,
        levels: random.pick(&[MOST_LEVELS, MOST_LEVELS, 7, 2]),
        blocks,
        junk: None,
    })
}

/// An index whose root has no entry. It fits no table, not even one without records.
pub fn hollow_index(random: &mut Random, key_length: usize) -> Option<Vec<u8>> {
    let shape = IndexShape {
        version: 0x09,
        units: MOST_UNITS,
        header_size: LEAST_INDEX,
        key_length,
    };
    if shape.capacity() == 0 {
        return None;
    }
    let image = IndexImage {
        shape,
        root: 1,
        levels: random.within(1..=MOST_LEVELS.into()) as u8,
        blocks: vec![Vec::new()],
        junk: random.percent(50).then(|| random.bits()),
    };
    let mut bytes = image.bytes();
    let none = ((key_length + ENTRY_TAIL) as u16).wrapping_neg();
    put_word(&mut bytes, LEAST_INDEX + LAST_RECORD, none);
    Some(bytes)
}
