//! The model's cursor on generated tables and on broken chains.

use brittomaz_tests::codes;
use brittomaz_tests::generate::{table, Shape, StoredField, TableImage, UsedBlock};
use brittomaz_tests::layout::{put_word, FIRST_BLOCK, LAST_RECORD};
use brittomaz_tests::model::{start, step, Cursor, Refusal, Stepped};
use brittomaz_tests::random::Random;

const TABLES: u64 = 1000;

/// The cursors of all records, where the end comes behind them.
fn all_records(bytes: &[u8]) -> Vec<Cursor> {
    let mut cursors = Vec::new();
    let mut answer = start(bytes);
    while let Stepped::Record(cursor) = answer {
        cursors.push(cursor);
        answer = step(bytes, cursor);
    }
    assert_eq!(answer, Stepped::End(Cursor::ENDED));
    cursors
}

/// Where the records are by the way the table was made.
fn made_records(image: &TableImage) -> Vec<Cursor> {
    let size = image.shape.record_size();
    let blocks = image.chain.iter().zip(0..);
    let cursors = blocks.flat_map(|(block, moves)| {
        let records = block.records.len() / size;
        (0..records as u16).map(move |place| Cursor {
            block: block.number,
            place,
            moves,
            ended: false,
        })
    });
    cursors.collect()
}

#[test]
fn every_record_comes_once_in_chain_order() {
    for case in 0..TABLES {
        let image = table(&mut Random::of_case(7, case));
        assert_eq!(all_records(&image.bytes()), made_records(&image));
    }
}

const HEADER: usize = 2048;
/// The heads of blocks 2 and 3.
const HEAD_2: usize = HEADER + 1024;
const HEAD_3: usize = HEADER + 2048;

/// Blocks 2 (one record), 3 (none) and 1 (two), in this order.
fn three_blocks() -> Vec<u8> {
    let shape = Shape {
        version: 0x09,
        units: 1,
        fields: vec![StoredField {
            code: codes::TEXT,
            width: 5,
        }],
        names: vec![b"text".to_vec()],
        key_fields: 0,
        header_size: HEADER,
    };
    let chain = [(2, 1), (3, 0), (1, 2)].map(|(number, records)| UsedBlock {
        number,
        records: vec![b'x'; 5 * records],
    });
    let image = TableImage {
        shape,
        chain: chain.to_vec(),
        free: Vec::new(),
        junk: None,
    };
    image.bytes()
}

fn at(block: u16, place: u16, moves: u16) -> Cursor {
    Cursor {
        block,
        place,
        moves,
        ended: false,
    }
}

fn ended(cursor: Cursor) -> Cursor {
    Cursor {
        ended: true,
        ..cursor
    }
}

fn refused(bytes: &[u8], cursor: Cursor, refusal: Refusal) {
    let answer = Stepped::Refused(refusal, cursor);
    assert_eq!(step(bytes, cursor), answer);
}

#[test]
fn blocks_without_records_are_moves() {
    let bytes = three_blocks();
    let records = [at(2, 0, 0), at(1, 0, 2), at(1, 1, 2)];
    assert_eq!(all_records(&bytes), records);
    assert_eq!(
        step(&bytes, ended(at(2, 0, 0))),
        Stepped::End(Cursor::ENDED)
    );
}

#[test]
fn a_refused_step_hands_back_its_cursor() {
    let mut bytes = three_blocks();
    for cursor in [
        at(0, 0, 0),
        at(4, 0, 0),
        at(2, 0, 3),
        at(2, 1, 0),
        at(3, 0, 1),
    ] {
        refused(&bytes, cursor, Refusal::Argument);
    }
    refused(&bytes[..119], ended(at(4, 5, 6)), Refusal::Short);
    put_word(&mut bytes, HEAD_3 + LAST_RECORD, 1);
    refused(&bytes, at(2, 0, 0), Refusal::Count);
    refused(&bytes, at(3, 9, 0), Refusal::Count);
    put_word(&mut bytes, HEAD_2, 4);
    refused(&bytes, at(2, 0, 0), Refusal::Chain);
}

#[test]
fn moves_have_an_end() {
    let mut bytes = three_blocks();
    assert_eq!(step(&bytes, at(1, 1, 2)), Stepped::End(Cursor::ENDED));
    refused(&bytes, at(2, 0, 1), Refusal::Chain);
    put_word(&mut bytes, HEAD_2, 2);
    assert_eq!(step(&bytes, at(2, 0, 1)), Stepped::Record(at(2, 0, 2)));
    refused(&bytes, at(2, 0, 2), Refusal::Chain);
}

#[test]
fn the_first_block() {
    let mut bytes = three_blocks();
    put_word(&mut bytes, FIRST_BLOCK, 0);
    assert_eq!(start(&bytes), Stepped::End(Cursor::ENDED));
    put_word(&mut bytes, FIRST_BLOCK, 4);
    let refused = Stepped::Refused(Refusal::Chain, Cursor::ENDED);
    assert_eq!(start(&bytes), refused);
}
