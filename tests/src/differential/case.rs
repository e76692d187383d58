//! The cases: which table, which index, which MB file, and what is wrong with them.

use super::sweep;
use crate::generate::{self, Leaf, TableImage};
use crate::layout::MOST_LISTED;
use crate::mutate::{self, At};
use crate::random::Random;

/// One case in so many is a small file cut short, and another a small file with one byte changed.
const SWEEP_EVERY: u64 = 8;
/// One case in so many has as many blocks as there can be.
const HUGE_EVERY: u64 = 6000;
/// Cases in a hundred of which a blob is broken, where there is one.
const BROKEN_BLOBS: usize = 60;
/// Lengths at the limit of what is listed.
const LIST_LIMITS: [usize; 4] = [
    MOST_LISTED - 1,
    MOST_LISTED,
    MOST_LISTED + 1,
    MOST_LISTED + 700,
];

/// A table, an index and an MB file, good or not.
#[derive(Default)]
pub struct Case {
    /// The table's bytes.
    pub table: Vec<u8>,
    /// The index's bytes.
    pub index: Vec<u8>,
    /// The MB file's bytes.
    pub mb: Vec<u8>,
    /// The cell of a blob that is worth a question.
    pub blob: Option<At>,
}

/// The case of a number in the run of a seed.
pub fn make(seed: u64, number: u64) -> Case {
    let mut random = Random::of_case(seed, number);
    let random = &mut random;
    match number % SWEEP_EVERY {
        6 => return sweep::changed(seed, number / SWEEP_EVERY),
        7 => return sweep::cut(seed, number / SWEEP_EVERY),
        _ => {}
    }
    if number % HUGE_EVERY == HUGE_EVERY / 2 {
        let image = generate::huge_table(random);
        return with_index(random, &image);
    }
    let mut image = generate::table(random);
    let mb = generate::fill_blobs(random, &mut image);
    let mut case = with_index(random, &image);
    case.mb = mb;
    match random.below(100) {
        0..=33 => {}
        34..=58 => mutate::break_table(&mut case.table, random),
        59..=80 => mutate::break_index(&mut case.index, random),
        81..=83 => {
            mutate::break_table(&mut case.table, random);
            mutate::break_index(&mut case.index, random);
        }
        84..=90 => make_stale(random, &image, &mut case),
        91..=92 => make_hostile(random, &image, &mut case),
        93 => make_hollow(random, &image, &mut case),
        94..=95 => make_foreign(random, &image, &mut case),
        96 => swap_files(random, &mut case),
        97..=98 => case = random_files(random),
        _ => random_behind(random, &mut case),
    }
    if random.percent(BROKEN_BLOBS) {
        case.blob = mutate::break_blob(&mut case.table, &mut case.mb, random);
    }
    case
}

/// A good table with a good index, where an index is possible.
pub fn with_index(random: &mut Random, image: &TableImage) -> Case {
    Case {
        table: image.bytes(),
        index: index_over(random, image, &image.first_keys()),
        ..Case::default()
    }
}

/// An index over some blocks; for an unkeyed table the keys are empty.
fn index_over(random: &mut Random, image: &TableImage, leaves: &[Leaf]) -> Vec<u8> {
    let index = generate::index_for(random, image.shape.key_length(), leaves);
    index.map_or_else(|| random.bytes(300), |index| index.bytes())
}

/// A tree that is whole in itself and leads to other blocks than the table has.
fn make_foreign(random: &mut Random, image: &TableImage, case: &mut Case) {
    let mut leaves = image.first_keys();
    if !leaves.is_empty() {
        let one = random.below(leaves.len());
        let other = random.below(leaves.len());
        match random.below(5) {
            0 => drop(leaves.remove(one)),
            1 => leaves.insert(one, leaves[other].clone()),
            2 => leaves.swap(one, other),
            3 => leaves[one].1 = leaves[other].1,
            _ => leaves[one].0 = leaves[other].0.clone(),
        }
    } else {
        let key = random.bytes(image.shape.key_length());
        leaves.push((key, 1));
    }
    case.index = index_over(random, image, &leaves);
}

fn make_stale(random: &mut Random, image: &TableImage, case: &mut Case) {
    let changed = if random.percent(50) {
        mutate::with_record_deleted(image, random)
    } else {
        mutate::with_record_inserted(image, random)
    };
    if let Some(changed) = changed {
        case.table = changed.bytes();
    }
}

fn make_hostile(random: &mut Random, image: &TableImage, case: &mut Case) {
    let key = image.first_keys().into_iter().next();
    let key = key.map_or_else(|| random.bytes(image.shape.key_length()), |(key, _)| key);
    if let Some(index) = mutate::hostile_index(random, &key) {
        case.index = index.bytes();
    }
}

/// An index whose root is empty, for a table that has no records half of the time.
fn make_hollow(random: &mut Random, image: &TableImage, case: &mut Case) {
    if random.percent(50) {
        let mut emptied = image.clone();
        emptied
            .chain
            .iter_mut()
            .for_each(|block| block.records.clear());
        case.table = emptied.bytes();
    }
    if let Some(index) = mutate::hollow_index(random, image.shape.key_length()) {
        case.index = index;
    }
}

/// The files lent for each other, or one of them for two.
fn swap_files(random: &mut Random, case: &mut Case) {
    match random.below(5) {
        0 => std::mem::swap(&mut case.table, &mut case.index),
        1 => case.index.clone_from(&case.table),
        2 => case.table.clone_from(&case.index),
        3 => case.mb.clone_from(&case.table),
        _ => std::mem::swap(&mut case.table, &mut case.mb),
    }
}

fn random_files(random: &mut Random) -> Case {
    let mut file = || {
        let lengths = [0, 1, 87, 88, 119, 120, 1024, random.below(5000)];
        let length = random.pick(&lengths);
        random.bytes(length)
    };
    Case {
        table: file(),
        index: file(),
        mb: file(),
        blob: None,
    }
}

/// Files that are good up to some place, and random from there on.
fn random_behind(random: &mut Random, case: &mut Case) {
    for file in [&mut case.table, &mut case.index, &mut case.mb] {
        let start = random.within(0..=file.len().min(2500));
        if random.percent(50) {
            random.fill(&mut file[start..]);
        }
    }
}

/// The table of a listing's number in the run of a seed.
pub fn listed_table(seed: u64, number: u64) -> Vec<u8> {
    let mut random = Random::of_case(!seed, number);
    let random = &mut random;
    let mut image = generate::table(random);
    let chance = random.below(100);
    if chance < 6 {
        stretch_header(random, &mut image);
    }
    let mut table = image.bytes();
    match chance {
        0..=64 => {}
        65..=89 => mutate::break_table(&mut table, random),
        90..=92 => {
            let length = random.pick(&LIST_LIMITS);
            table = random.bytes(length);
        }
        93..=95 => table.resize(random.pick(&LIST_LIMITS), 0),
        _ => table = random_files(random).table,
    }
    table
}

/// Gives the header the size that makes the whole file as long as a listing's limit, where it can.
fn stretch_header(random: &mut Random, image: &mut TableImage) {
    let blocks = image.chain.len() + image.free.len();
    let length = random.pick(&LIST_LIMITS);
    let size = length.saturating_sub(blocks * image.shape.block_size());
    if (image.shape.header_size..=65_535).contains(&size) {
        image.shape.header_size = size;
    }
}
