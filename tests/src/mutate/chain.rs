//! Faults in the used chain and the free chain, rule 8.

use super::{Fault, File};
use crate::layout::*;
use crate::model::Table;
use crate::random::Random;

/// The faults of this file.
pub const FAULTS: &[Fault] = &[
    next,
    previous,
    circle,
    lost_block,
    free_and_used,
    wrong_end,
    free_chain_joined,
    moved_to_free,
];

/// The chains of a table that keeps rules 1 to 7.
struct Chains {
    start: usize,
    block_size: usize,
    blocks: usize,
    used: Vec<u16>,
}

impl Chains {
    fn of(table: &[u8]) -> Option<Chains> {
        let read = Table::read(table).ok()?;
        let used = read.used_blocks().map(|(number, _)| number).collect();
        let blocks = usize::from(read.header.blocks);
        (blocks > 0).then_some(Chains {
            start: read.header.header_size,
            block_size: read.header.block_size,
            blocks,
            used,
        })
    }

    fn head(&self, number: u16) -> usize {
        self.start + (usize::from(number) - 1) * self.block_size
    }

    fn any(&self, random: &mut Random) -> u16 {
        random.within(1..=self.blocks) as u16
    }

    fn any_link(&self, random: &mut Random) -> u16 {
        let inside = self.any(random);
        random.pick(&[inside, inside, 0, self.blocks as u16 + 1, 0x8000, u16::MAX])
    }
}

fn next(table: &mut File, random: &mut Random) {
    let Some(chains) = Chains::of(table) else {
        return;
    };
    let head = chains.head(chains.any(random));
    put_word(table, head, chains.any_link(random));
}

fn previous(table: &mut File, random: &mut Random) {
    let Some(chains) = Chains::of(table) else {
        return;
    };
    let head = chains.head(chains.any(random));
    put_word(table, head + PREVIOUS, chains.any_link(random));
}

/// The last used block leads back to one before it.
fn circle(table: &mut File, random: &mut Random) {
    let Some(chains) = Chains::of(table) else {
        return;
    };
    let Some(&last) = chains.used.last() else {
        return;
    };
    let back = random.pick(&chains.used);
    put_word(table, chains.head(last), back);
    if random.percent(50) {
        put_word(table, chains.head(back) + PREVIOUS, last);
    }
}

/// A used block taken out of its chain and put into none.
fn lost_block(table: &mut File, random: &mut Random) {
    let Some(chains) = Chains::of(table) else {
        return;
    };
    if !chains.used.is_empty() {
        unlink(table, &chains, random.below(chains.used.len()));
    }
}

fn unlink(table: &mut [u8], chains: &Chains, place: usize) {
    let before = place.checked_sub(1).map(|place| chains.used[place]);
    let after = chains.used.get(place + 1).copied();
    match before {
        Some(before) => put_word(table, chains.head(before), after.unwrap_or(0)),
        None => put_word(table, FIRST_BLOCK, after.unwrap_or(0)),
    }
    match after {
        Some(after) => put_word(table, chains.head(after) + PREVIOUS, before.unwrap_or(0)),
        None => put_word(table, LAST_BLOCK, before.unwrap_or(0)),
    }
}

/// The free chain starts in a used block.
fn free_and_used(table: &mut File, random: &mut Random) {
    let Some(chains) = Chains::of(table) else {
        return;
    };
    put_word(table, FIRST_FREE, chains.any(random));
}

fn wrong_end(table: &mut File, random: &mut Random) {
    let Some(chains) = Chains::of(table) else {
        return;
    };
    let offset = random.pick(&[FIRST_BLOCK, LAST_BLOCK]);
    put_word(table, offset, chains.any_link(random));
}

/// The used chain goes on into the free one.
fn free_chain_joined(table: &mut File, _: &mut Random) {
    let Some(chains) = Chains::of(table) else {
        return;
    };
    let free = word(table, FIRST_FREE);
    if let Some(&last) = chains.used.last() {
        put_word(table, chains.head(last), free);
    }
}

/// A used block moved to the free chain, as a good table would have it but for its count.
fn moved_to_free(table: &mut File, random: &mut Random) {
    let Some(chains) = Chains::of(table) else {
        return;
    };
    if chains.used.is_empty() {
        return;
    }
    let place = random.below(chains.used.len());
    unlink(table, &chains, place);
    let moved = chains.used[place];
    let free = word(table, FIRST_FREE);
    put_word(table, chains.head(moved), free);
    put_word(table, FIRST_FREE, moved);
}
