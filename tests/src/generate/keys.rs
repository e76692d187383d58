//! Keys in strictly ascending order, often close to each other.

use super::{stored_cell, StoredField};
use crate::random::Random;
use std::collections::BTreeSet;

const LIMITS: [u8; 8] = [0x00, 0x01, 0x7E, 0x7F, 0x80, 0x81, 0xFE, 0xFF];

/// How the keys of one table are alike.
#[derive(Clone, Copy)]
enum Style {
    /// Nothing in common.
    Random,
    /// One prefix, another last byte or two.
    Last,
    /// Bytes at the limits of signed and unsigned ones.
    Limits,
    /// Numbers that follow each other.
    Counting,
    /// Cells as the fields would hold them.
    Cells,
}

/// At most so many keys of some fields; fewer where there are not enough.
pub fn ascending_keys(random: &mut Random, fields: &[StoredField], count: usize) -> Vec<Vec<u8>> {
    use Style::{Cells, Counting, Last, Limits};
    let length = fields.iter().map(|field| usize::from(field.width)).sum();
    let style = random.pick(&[Style::Random, Last, Last, Limits, Counting, Cells]);
    let mut keys = BTreeSet::new();
    let mut base = random.bytes(length);
    for _ in 0..count * 3 + 8 {
        if keys.len() == count {
            break;
        }
        keys.insert(next_key(random, style, fields, &mut base));
    }
    keys.into_iter().collect()
}

fn next_key(random: &mut Random, style: Style, fields: &[StoredField], base: &mut [u8]) -> Vec<u8> {
    let length = base.len();
    match style {
        Style::Random => random.fill(base),
        Style::Last => {
            let varied = random.within(1..=length.min(2));
            for byte in &mut base[length - varied..] {
                *byte = random.byte();
            }
        }
        Style::Limits => base.fill_with(|| random.pick(&LIMITS)),
        Style::Counting => count_up(base, random.within(1..=3)),
        Style::Cells => {
            return fields
                .iter()
                .flat_map(|&field| stored_cell(random, field))
                .collect();
        }
    }
    base.to_vec()
}

/// Adds a small number to a big-endian one; past the largest it starts again.
fn count_up(number: &mut [u8], step: usize) {
    for _ in 0..step {
        for byte in number.iter_mut().rev() {
            *byte = byte.wrapping_add(1);
            if *byte != 0 {
                break;
            }
        }
    }
}
