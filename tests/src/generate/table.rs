//! Random tables: how many blocks, which chain they are in, which records they hold.

use super::keys::ascending_keys;
use super::{stored_cell, Shape, TableImage, UsedBlock};
use crate::layout::MOST_BLOCKS;
use crate::random::Random;

/// The longest key of which two entries fit in an index block.
const LONGEST_PAIRED_KEY: usize = 2039;

/// A random table that the table check accepts.
pub fn table(random: &mut Random) -> TableImage {
    let shape = Shape::random(random);
    let blocks = random_block_count(random);
    let free = random_free_count(random, blocks);
    fill(random, shape, blocks, free)
}

/// A table of so many blocks in about as few bytes as there can be; the third block is free.
pub fn small_table(random: &mut Random, blocks: usize) -> TableImage {
    let shape = Shape::small(random);
    fill(random, shape, blocks, blocks / 3)
}

/// A table with as many blocks as there can be, in 1 KB blocks.
pub fn huge_table(random: &mut Random) -> TableImage {
    let mut shape = Shape::small(random);
    shape.fields[0].width = 4;
    let free = random.below(20_000);
    fill(random, shape, MOST_BLOCKS.into(), free)
}

fn random_block_count(random: &mut Random) -> usize {
    match random.below(1000) {
        0..=39 => 0,
        40..=199 => 1,
        200..=899 => random.within(2..=8),
        900..=989 => random.within(9..=30),
        _ => random.within(31..=120),
    }
}

fn random_free_count(random: &mut Random, blocks: usize) -> usize {
    match random.below(10) {
        0..=4 => 0,
        5..=8 => random.below(blocks / 2 + 1),
        _ => blocks,
    }
}

fn fill(random: &mut Random, shape: Shape, blocks: usize, free: usize) -> TableImage {
    let mut numbers: Vec<u16> = (1..=blocks as u16).collect();
    if random.percent(75) {
        random.shuffle(&mut numbers);
    }
    let free = numbers.split_off(blocks - free);
    let counts = random_counts(random, &shape, numbers.len());
    let chain = if shape.key_fields > 0 {
        keyed_chain(random, &shape, &numbers, &counts)
    } else {
        unkeyed_chain(random, &shape, &numbers, &counts)
    };
    let junk = random.percent(50).then(|| random.bits());
    TableImage {
        shape,
        chain,
        free,
        junk,
    }
}

/// How many records each used block holds.
fn random_counts(random: &mut Random, shape: &Shape, used: usize) -> Vec<usize> {
    let capacity = shape.capacity();
    let empty = random.pick(&[0, 0, 15, 40, 100]);
    let full = if capacity <= 40 || random.percent(1) {
        random.pick(&[0, 10, 100])
    } else {
        0
    };
    let most = random.pick(&[1, 2, 4, 8]);
    let one_block = shape.key_length() > LONGEST_PAIRED_KEY && random.percent(70);
    let mut counts: Vec<usize> = (0..used)
        .map(|_| match random.below(100) {
            chance if chance < empty => 0,
            _ if random.percent(full) => capacity,
            _ => random.within(1..=capacity.min(most)),
        })
        .collect();
    if one_block && used > 0 {
        let kept = random.below(used);
        for (place, count) in counts.iter_mut().enumerate() {
            if place != kept {
                *count = 0;
            }
        }
    }
    counts
}

fn keyed_chain(
    random: &mut Random,
    shape: &Shape,
    numbers: &[u16],
    counts: &[usize],
) -> Vec<UsedBlock> {
    let (key, rest) = shape.fields.split_at(shape.key_fields);
    let mut keys = ascending_keys(random, key, counts.iter().sum()).into_iter();
    let used = numbers.iter().zip(counts);
    used.map(|(&number, &count)| {
        let mut records = Vec::with_capacity(count * shape.record_size());
        for mut record in keys.by_ref().take(count) {
            record.extend(rest.iter().flat_map(|&field| stored_cell(random, field)));
            records.extend(record);
        }
        UsedBlock { number, records }
    })
    .collect()
}

fn unkeyed_chain(
    random: &mut Random,
    shape: &Shape,
    numbers: &[u16],
    counts: &[usize],
) -> Vec<UsedBlock> {
    let used = numbers.iter().zip(counts);
    used.map(|(&number, &count)| {
        let cells = (0..count).flat_map(|_| &shape.fields);
        let records = cells
            .flat_map(|&field| stored_cell(random, field))
            .collect();
        UsedBlock { number, records }
    })
    .collect()
}
