//! Cells by themselves: any two of one kind, written or read.

use crate::kind::{Kind, KINDS};
use crate::side::{Side, SIDES};
use crate::value::Value;
use brittomaz_tests::calls;
use brittomaz_tests::differential::any_value;
use brittomaz_tests::generate::{Shape, TableImage, UsedBlock};
use brittomaz_tests::layout::MOST_UNITS;
use brittomaz_tests::random::Random;

const SEED: u64 = 3;
/// Values drawn of a kind, most of them at its limits, and as many at random. Some are refused.
const DRAWN: usize = 250;
/// Stored numbers drawn of a kind, each with the next. The cells fit in one block.
const STORED: usize = 250;
/// Cells that hold numbers are at least so many.
const LEAST_NUMBERS: usize = 100;

/// A cell, and what it was written for or is read as; none where it has no meaning.
struct Cell {
    stored: Vec<u8>,
    value: Option<Value>,
}

/// Whether two cells with these values are in the order of their bytes: one comes before the other exactly where its
/// value does, and their bytes are the same exactly where their values are.
fn keep_order(one: (&[u8], Value), other: (&[u8], Value)) -> bool {
    let earlier = one.0 < other.0;
    let equal = one.0 == other.0;
    earlier == one.1.comes_before(other.1) && equal == one.1.is_same(other.1)
}

/// Any two cells that have values are in order, and cells without meaning are outside. Answers how many of these are
/// before all numbers, and how many behind.
fn assert_order(cells: &[Cell], side: &Side) -> (usize, usize) {
    let values = cells
        .iter()
        .filter_map(|cell| Some((&cell.stored[..], cell.value?)));
    let values: Vec<_> = values.collect();
    for one in &values {
        for other in &values {
            assert!(
                keep_order(*one, *other),
                "{}: {one:x?}, {other:x?}",
                side.name
            );
        }
    }
    let numbers = values.iter().filter(|(_, value)| value.is_number());
    let numbers: Vec<&[u8]> = numbers.map(|(stored, _)| *stored).collect();
    assert!(numbers.len() >= LEAST_NUMBERS, "{} numbers", numbers.len());
    assert!(numbers.len() < values.len(), "no blank");
    let refused = cells.iter().filter(|cell| cell.value.is_none());
    let (before, behind): (Vec<_>, Vec<_>) = refused.partition(|cell| {
        let stored = &cell.stored[..];
        let before = numbers.iter().all(|number| stored < number);
        let behind = numbers.iter().all(|number| stored > number);
        assert!(before || behind, "{}: {stored:x?}", side.name);
        before
    });
    (before.len(), behind.len())
}

/// The number next to a value of a kind; its zeros are next to each other.
fn next(kind: &Kind, value: u64) -> u64 {
    if !kind.has_two_zeros() {
        return value.wrapping_add(1);
    }
    let double = f64::from_bits(value);
    let next = if double == 0.0 && double.is_sign_negative() {
        0.0
    } else {
        double.next_up()
    };
    next.to_bits()
}

#[test]
fn written_cells() {
    for kind in &KINDS {
        let mut random = Random::of_case(SEED, kind.code.into());
        let what = kind.what();
        let mut values = vec![(calls::BLANK, 0)];
        for _ in 0..DRAWN {
            for value in [any_value(&mut random, what), kind.any_number(&mut random)] {
                values.extend([(what, value), (what, next(kind, value))]);
            }
        }
        for side in &SIDES {
            let written = values.iter().filter_map(|&(what, value)| {
                Some(Cell {
                    stored: side.written(kind, what, value)?,
                    value: Some(Value::of(what, value)),
                })
            });
            assert_order(&written.collect::<Vec<_>>(), side);
        }
    }
}

/// A table without a key that holds cells of a kind in one block.
fn table_of(kind: &Kind, cells: &[Vec<u8>]) -> Vec<u8> {
    let mut shape = Shape::small(&mut Random::new(SEED));
    shape.units = MOST_UNITS;
    shape.fields = vec![kind.field()];
    shape.names.truncate(1);
    shape.key_fields = 0;
    let block = UsedBlock {
        number: 1,
        records: cells.concat(),
    };
    let image = TableImage {
        shape,
        chain: vec![block],
        free: Vec::new(),
        junk: None,
    };
    image.bytes()
}

#[test]
fn read_cells() {
    for kind in &KINDS {
        let mut random = Random::of_case(SEED, kind.code.into());
        let mut stored = Vec::new();
        for _ in 0..STORED {
            let number = kind.any_stored(&mut random);
            stored.extend([number, number.wrapping_add(1)].map(|number| kind.bytes(number)));
        }
        let table = table_of(kind, &stored);
        for side in &SIDES {
            let cells = stored.iter().zip(0..).map(|(stored, place)| Cell {
                stored: stored.clone(),
                value: side.first_cell(&table, 1, place),
            });
            let (before, behind) = assert_order(&cells.collect::<Vec<_>>(), side);
            assert_eq!(before > 0, kind.has_refused_before(), "{kind:x?}");
            assert_eq!(behind > 0, kind.has_refused_behind(), "{kind:x?}");
        }
    }
}

/// Their stored numbers are next to each other.
#[test]
fn nothing_between_the_zeros() {
    let numbers = [0x7FFF_FFFF_FFFF_FFFF_u64, 0x8000_0000_0000_0000];
    assert_eq!(numbers[0] + 1, numbers[1]);
    let zeros = numbers.map(u64::to_be_bytes);
    for kind in KINDS.iter().filter(|kind| kind.has_two_zeros()) {
        for side in &SIDES {
            let written =
                [-0.0, 0.0_f64].map(|zero| side.written(kind, calls::NUMBER, zero.to_bits()));
            assert_eq!(written, zeros.map(|zero| Some(zero.to_vec())));
        }
    }
}

/// By document 01 alone, every double with its top bit complemented, negative numbers come in the wrong order. Neither
/// side is asked: they have request 02's rule.
#[test]
fn not_without_request_02() {
    let stored = |double: f64| (double.to_bits() ^ 1 << 63).to_be_bytes();
    let (less, greater) = (stored(-2.0), stored(-1.0));
    assert_eq!(less, [0x40, 0, 0, 0, 0, 0, 0, 0]);
    assert_eq!(greater, [0x3F, 0xF0, 0, 0, 0, 0, 0, 0]);
    assert!(!keep_order(
        (&less, Value::Double(-2.0)),
        (&greater, Value::Double(-1.0))
    ));
}
