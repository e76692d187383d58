//! Small files gone through from end to end: cut at every length, each byte changed in many ways.

use super::case::{with_index, Case};
use crate::generate;
use crate::layout::{word, HEADER_SIZE, UNIT};
use crate::random::Random;

/// Bytes of each block that are changed: its head and the first records or entries.
const CHANGED_IN_BLOCK: usize = 40;
/// The ways to change a byte.
const CHANGES: [fn(u8) -> u8; 16] = [
    |_| 0x00,
    |_| 0x01,
    |_| 0x02,
    |_| 0x7F,
    |_| 0x80,
    |_| 0xFF,
    |byte| byte.wrapping_add(1),
    |byte| byte.wrapping_sub(1),
    |byte| byte ^ 0x01,
    |byte| byte ^ 0x02,
    |byte| byte ^ 0x04,
    |byte| byte ^ 0x08,
    |byte| byte ^ 0x10,
    |byte| byte ^ 0x20,
    |byte| byte ^ 0x40,
    |byte| byte ^ 0x80,
];

/// The small files of a round.
fn small_case(seed: u64, round: u64) -> Case {
    let mut random = Random::of_case(seed, u64::MAX - round);
    let blocks = 1 + (round % 3) as usize;
    let image = generate::small_table(&mut random, blocks);
    with_index(&mut random, &image)
}

/// A table or an index cut at a length, from 0 to whole.
pub fn cut(seed: u64, number: u64) -> Case {
    spoiled(seed, number, |file| file.len() + 1, Vec::truncate)
}

/// A table or an index with one byte changed in one way.
pub fn changed(seed: u64, number: u64) -> Case {
    let ways = |file: &[u8]| places(file).len() * CHANGES.len();
    spoiled(seed, number, ways, |file, way| {
        let place = places(file)[way / CHANGES.len()];
        file[place] = CHANGES[way % CHANGES.len()](file[place]);
    })
}

/// The case of a number: each file of a round is spoiled in all of its ways, then comes a new round.
fn spoiled(
    seed: u64,
    number: u64,
    ways: fn(&[u8]) -> usize,
    spoil: fn(&mut Vec<u8>, usize),
) -> Case {
    let mut left = number as usize;
    let mut round = 0;
    loop {
        let mut case = small_case(seed, round);
        for of_index in [false, true] {
            let file = if of_index {
                &mut case.index
            } else {
                &mut case.table
            };
            let count = ways(file);
            if left < count {
                spoil(file, left);
                return case;
            }
            left -= count;
        }
        round += 1;
    }
}

/// The places of the header and of the starts of the blocks.
fn places(file: &[u8]) -> Vec<usize> {
    let header_size = usize::from(word(file, HEADER_SIZE));
    let counted =
        |place: &usize| *place < header_size || (place - header_size) % UNIT < CHANGED_IN_BLOCK;
    (0..file.len()).filter(counted).collect()
}
