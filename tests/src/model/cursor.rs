//! Records, one after another (document 01, the section of this name).

use super::{Refusal, Table};

/// A place in the used chain. A cursor that has not ended stands on a record.
#[derive(Clone, Copy, Debug, PartialEq, Eq)]
pub struct Cursor {
    /// The record's block, from 1.
    pub block: u16,
    /// The record's place in the block, from 0.
    pub place: u16,
    /// The block moves made.
    pub moves: u16,
    /// Whether it has ended.
    pub ended: bool,
}

impl Cursor {
    /// The cursor at the end, its numbers 0.
    pub const ENDED: Cursor = Cursor {
        block: 0,
        place: 0,
        moves: 0,
        ended: true,
    };
}

/// What a start or a step hands back, each time with a cursor.
#[derive(Clone, Copy, Debug, PartialEq, Eq)]
pub enum Stepped {
    /// The record on which the cursor stands.
    Record(Cursor),
    /// The end, with an ended cursor.
    End(Cursor),
    /// A refusal, with an ended cursor from a start and the same cursor from a step.
    Refused(Refusal, Cursor),
}

/// The first record of the used chain.
pub fn start(table: &[u8]) -> Stepped {
    let first = Table::read(table).and_then(|table| arrive(&table, table.header.first, 0));
    stepped(first, Cursor::ENDED)
}

/// The record behind the cursor's own.
pub fn step(table: &[u8], cursor: Cursor) -> Stepped {
    let next = Table::read(table).and_then(|table| {
        if cursor.ended {
            return Ok(None);
        }
        behind(&table, cursor)
    });
    stepped(next, cursor)
}

/// The answer of a record, of the end or of a refusal, which hands back the cursor given.
fn stepped(reached: Result<Option<Cursor>, Refusal>, given: Cursor) -> Stepped {
    match reached {
        Ok(Some(cursor)) => Stepped::Record(cursor),
        Ok(None) => Stepped::End(Cursor::ENDED),
        Err(refusal) => Stepped::Refused(refusal, given),
    }
}

/// The record behind that of a cursor which has not ended, if there is one.
fn behind(table: &Table, cursor: Cursor) -> Result<Option<Cursor>, Refusal> {
    let block = table.blocks.get(cursor.block).ok_or(Refusal::Argument)?;
    if !may_have_moved(table, cursor.moves) {
        return Err(Refusal::Argument);
    }
    let count = block.record_count().ok_or(Refusal::Count)?;
    let next = usize::from(cursor.place) + 1;
    if next > count {
        return Err(Refusal::Argument);
    }
    if next == count {
        return arrive(table, block.next(), cursor.moves + 1);
    }
    let place = cursor.place + 1;
    Ok(Some(Cursor { place, ..cursor }))
}

/// The first record from a block on, reached with so many moves, if there is one. Blocks without
/// records are passed over.
fn arrive(table: &Table, number: u16, moves: u16) -> Result<Option<Cursor>, Refusal> {
    let (mut number, mut moves) = (number, moves);
    while number != 0 {
        let block = table.blocks.get(number).ok_or(Refusal::Chain)?;
        if !may_have_moved(table, moves) {
            return Err(Refusal::Chain);
        }
        if block.record_count().ok_or(Refusal::Count)? > 0 {
            return Ok(Some(Cursor {
                block: number,
                place: 0,
                moves,
                ended: false,
            }));
        }
        number = block.next();
        moves += 1;
    }
    Ok(None)
}

/// Whether so many moves are at most blocks − 1.
fn may_have_moved(table: &Table, moves: u16) -> bool {
    moves < table.header.blocks
}
