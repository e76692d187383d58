//! The library and the model on the largest tables there can be, 32,767 blocks of 4 KB, and on an
//! MB file with a block at the last offset.

use brittomaz_tests::calls::{cursor_of, IN_MB, RECORD};
use brittomaz_tests::generate::{tree, IndexShape, Shape, StoredField, TableImage, UsedBlock};
use brittomaz_tests::layout::{put_word, MOST_BLOCKS, MOST_UNITS, RECORDS};
use brittomaz_tests::mb::{long, put_long, OWN, OWN_LENGTH, UNIT, UNITS};
use brittomaz_tests::model::{Cursor, Stepped, Table};
use brittomaz_tests::{calls, codes, model};

const MARKS: usize = MOST_BLOCKS as usize + 3;

/// A table with one text field in the largest header and blocks.
fn largest(width: u8, key_fields: usize, chain: Vec<UsedBlock>) -> TableImage {
    let code = codes::TEXT;
    TableImage {
        shape: Shape {
            version: 0x09,
            units: MOST_UNITS,
            fields: vec![StoredField { code, width }],
            names: vec![b"only".to_vec()],
            key_fields,
            header_size: u16::MAX.into(),
        },
        chain,
        free: Vec::new(),
        junk: None,
    }
}

fn assert_same_check(table: &[u8], expected: u32) {
    let mut marks = vec![7; MARKS];
    let mut model_marks = marks.clone();
    assert_eq!(calls::table_check(table, &mut marks), expected);
    let answer = model::table_check(table, &mut model_marks);
    assert_eq!(calls::check_number(&answer), expected);
    assert!(marks == model_marks);
}

#[test]
fn most_records() {
    let full = |number| UsedBlock {
        number,
        records: vec![b'x'; 4090],
    };
    let mut table = largest(1, 0, (1..=MOST_BLOCKS).rev().map(full).collect()).bytes();
    assert_eq!(long(&table, RECORDS), 134_017_030);
    assert_same_check(&table, 0);
    table[RECORDS] ^= 1;
    assert_same_check(&table, 9);
}

/// Three records in some blocks, none in others, and a full block at the end.
fn keyed_chain() -> (Vec<UsedBlock>, u16) {
    let mut next = 0_u16;
    let mut block = |number| {
        let count = match number {
            MOST_BLOCKS => 2045,
            _ if number % 2 == 0 => 3,
            _ => 0,
        };
        let keys = next..next + count;
        next += count;
        UsedBlock {
            number,
            records: keys.flat_map(u16::to_be_bytes).collect(),
        }
    };
    let chain = (1..=MOST_BLOCKS).map(&mut block).collect();
    (chain, next)
}

/// Blocks without records up to the last of the chain, which is full.
#[test]
fn farthest_record() {
    let block = |number| UsedBlock {
        number,
        records: vec![b'x'; if number == 1 { 4090 } else { 0 }],
    };
    let table = largest(1, 0, (1..=MOST_BLOCKS).rev().map(block).collect()).bytes();
    let first = u64::from(MOST_BLOCKS - 1) << 48 | 1 << 16 | 1 << 8;
    let last = first | 4089 << 32;
    let place = u64::from(u16::MAX) + 6 + 4089;
    let cell = [calls::TEXT, place, 1, 0];
    let mut numbers = [7; 5];
    assert_eq!(calls::start(&table, &mut numbers), RECORD);
    assert_eq!(numbers, [first, 7, 7, 7, 7]);
    numbers[0] = last - (1 << 32);
    assert_eq!(calls::step(&table, &mut numbers), RECORD);
    assert_eq!(numbers, [last, 7, 7, 7, 7]);
    assert_eq!(calls::step(&table, &mut numbers), 0);
    assert_eq!(numbers, [0, 7, 7, 7, 7]);
    assert_eq!(calls::cell(&table, 1, 4089, 1, &mut numbers), 0);
    assert_eq!(numbers[..4], cell);
    assert_eq!(calls::record(&table, 1, 4089, &mut numbers), 0);
    assert_eq!(numbers[..4], cell);
    assert_eq!(calls::record(&table, 1, 4090, &mut numbers), 13);
    assert_eq!(numbers, [0; 5]);
    let model = model::start(&table);
    assert_eq!(model, Stepped::Record(cursor_of(first)));
    assert_eq!(
        model::step(&table, cursor_of(last)),
        Stepped::End(Cursor::ENDED)
    );
}

#[test]
fn farthest_place() {
    let (chain, records) = keyed_chain();
    let image = largest(2, 1, chain);
    let shape = IndexShape {
        version: 0x03,
        units: 1,
        header_size: 88,
        key_length: 2,
    };
    let index = tree(shape, &image.first_keys()).expect("short keys");
    let (table, index) = (image.bytes(), index.bytes());
    let mut marks = vec![7; MARKS];
    assert_eq!(calls::pair_check(&table, &index, &mut marks), 0);
    assert_eq!(model::pair_check(&table, &index, &mut marks), Ok(()));
    let last = 2044 << 32 | u64::from(MOST_BLOCKS) << 16 | 1 << 8;
    let key = (records - 1).to_be_bytes();
    assert_eq!(calls::scan(&table, &key, &mut marks), last);
    assert_eq!(
        calls::pack_scan(model::scan(&table, &key, &mut marks)),
        last
    );
    for sought in [0, 1, records - 2046, records - 2045, records - 1, records] {
        let key = sought.to_be_bytes();
        let walked = calls::walk(&table, &index, &key);
        assert_eq!(walked, calls::pack_walk(model::walk(&table, &index, &key)));
        assert_eq!(
            calls::place_of(walked),
            calls::scan(&table, &key, &mut marks)
        );
    }
}

/// An unkeyed table of one blob, without a leader, in a block of its own at an offset.
fn with_blob(offset: u32, length: u32) -> Vec<u8> {
    let mut image = largest(10, 0, Vec::new());
    image.shape.fields[0].code = codes::FIRST_BLOB;
    let (offset, length) = (offset | 0xFF, length.to_le_bytes());
    let records = [&offset.to_le_bytes(), &length, &[1, 0][..]].concat();
    image.chain.push(UsedBlock { number: 1, records });
    image.bytes()
}

/// The block's end is beyond 32 bits. Of the file's 4 GB only the head's page is ever touched.
#[test]
fn farthest_blob() {
    const BASE: usize = u32::MAX as usize + 1 - UNIT;
    const LENGTH: u32 = UNIT as u32 + 7;
    let table = with_blob(BASE as u32, LENGTH);
    let mut mb = vec![0; BASE + 2 * UNIT];
    mb[BASE] = OWN;
    put_word(&mut mb[BASE..], UNITS, 2);
    put_long(&mut mb[BASE..], OWN_LENGTH, LENGTH);
    let whole = mb.len();
    let found = (IN_MB, [BASE as u64 + 9, LENGTH.into(), 7]);
    let unfit = (18, [0; 3]);
    for (length, expected) in [(whole, found), (whole - 1, unfit), (BASE + 9, unfit)] {
        let (mut part, mut model_part, mb) = ([7; 3], [7; 3], &mb[..length]);
        let answer = calls::blob(&table, mb, 1, 0, 1, &mut part);
        assert_eq!((answer, part), expected);
        let read = Table::read(&table);
        let answer = calls::expected::blob(&read, mb, 1, 0, 1, &mut model_part);
        assert_eq!((answer, model_part), expected);
    }
}
