//! Faults that know nothing of the format: cuts, additions, changed bytes.

use super::{Fault, File};
use crate::random::Random;

/// The faults of this file.
pub const FAULTS: &[Fault] = &[
    truncate,
    truncate_to_head,
    truncate_by_one,
    extend_by_one,
    extend,
    flip_bit,
    change_byte,
    change_head_byte,
    change_part,
    remove_byte,
    copy_part,
];

fn truncate(file: &mut File, random: &mut Random) {
    let length = random.below(file.len() + 1);
    file.truncate(length);
}

fn truncate_to_head(file: &mut File, random: &mut Random) {
    let length = random.pick(&[0, 1, 57, 58, 87, 88, 89, 119, 120, 121]);
    file.truncate(length);
}

fn truncate_by_one(file: &mut File, _: &mut Random) {
    file.pop();
}

fn extend_by_one(file: &mut File, random: &mut Random) {
    file.push(random.byte());
}

fn extend(file: &mut File, random: &mut Random) {
    let length = random.pick(&[2, 6, 1023, 1024, 2048, 4096]);
    file.extend(random.bytes(length));
}

fn flip_bit(file: &mut File, random: &mut Random) {
    if !file.is_empty() {
        let place = random.below(file.len());
        file[place] ^= 1 << random.below(8);
    }
}

fn change_byte(file: &mut File, random: &mut Random) {
    if !file.is_empty() {
        let place = random.below(file.len());
        file[place] = random.byte();
    }
}

/// A byte of the fixed header, where most numbers are.
fn change_head_byte(file: &mut File, random: &mut Random) {
    if !file.is_empty() {
        let place = random.below(file.len().min(120));
        file[place] = random.byte();
    }
}

fn change_part(file: &mut File, random: &mut Random) {
    let start = random.below(file.len() + 1);
    let length = random.below(64).min(file.len() - start);
    random.fill(&mut file[start..start + length]);
}

fn remove_byte(file: &mut File, random: &mut Random) {
    if !file.is_empty() {
        file.remove(random.below(file.len()));
    }
}

/// Bytes of one place written over another.
fn copy_part(file: &mut File, random: &mut Random) {
    let length = random.below(file.len().min(1024) + 1);
    let from = random.below(file.len() - length + 1);
    let to = random.below(file.len() - length + 1);
    file.copy_within(from..from + length, to);
}
