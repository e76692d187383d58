//! The used chain and the free chain, rule 8 (document 01, "Chain rules").

use super::{Block, Refusal, Table};

const UNSEEN: u8 = 0;
const USED: u8 = 1;
const FREE: u8 = 2;

/// Marks each block with its chain, one mark a block. Where the chains are broken, every mark
/// becomes 0.
pub fn mark_blocks(table: &Table, marks: &mut [u8]) -> Result<(), Refusal> {
    marks.fill(UNSEEN);
    let marked =
        mark_used(table, marks).and_then(|used| mark_free(table, marks).map(|free| used + free));
    if marked == Some(marks.len()) {
        return Ok(());
    }
    marks.fill(UNSEEN);
    Err(Refusal::Chain)
}

/// Marks the used blocks and counts them, where each names its predecessor and the last is the
/// header's last.
fn mark_used(table: &Table, marks: &mut [u8]) -> Option<usize> {
    let mut marked = 0;
    let mut previous = 0;
    let mut number = table.header.first;
    while number != 0 {
        let block = mark(table, marks, number, USED)?;
        if block.previous() != previous {
            return None;
        }
        previous = number;
        number = block.next();
        marked += 1;
    }
    (previous == table.header.last).then_some(marked)
}

/// Marks the free blocks and counts them.
fn mark_free(table: &Table, marks: &mut [u8]) -> Option<usize> {
    let mut marked = 0;
    let mut number = table.header.first_free;
    while number != 0 {
        number = mark(table, marks, number, FREE)?.next();
        marked += 1;
    }
    Some(marked)
}

/// Marks a block that is in the file and was not seen before.
fn mark<'a>(table: &Table<'a>, marks: &mut [u8], number: u16, chain: u8) -> Option<Block<'a>> {
    let block = table.blocks.get(number)?;
    let mark = &mut marks[usize::from(number) - 1];
    if *mark != UNSEEN {
        return None;
    }
    *mark = chain;
    Some(block)
}
