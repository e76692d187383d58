//! The numbers that the C calls give, by the model, on the paper's own table.

use brittomaz_tests::calls::expected::{self, Read};
use brittomaz_tests::calls::{self, cursor_of, pack_cursor, Written, RECORD};
use brittomaz_tests::layout::{put_word, FIRST_BLOCK, LAST_RECORD};
use brittomaz_tests::model::{Cursor, Table};
use brittomaz_tests::samples::samples;

const OWN: u64 = 0xA5A5;

/// The table of the paper's listing: cog with 12, and nut with a blank.
fn example() -> Vec<u8> {
    let example = samples()
        .into_iter()
        .find(|(name, _)| *name == "example.db");
    example.expect("a sample").1
}

/// An answer and the lent numbers behind it, of which there are so many.
fn asked(room: usize, ask: impl Fn(&mut [u64]) -> u32) -> (u32, Vec<u64>) {
    let mut numbers = vec![OWN; room];
    (ask(&mut numbers), numbers)
}

#[test]
fn header_and_fields() {
    let bytes = example();
    let read = Table::read(&bytes);
    let (answer, header) = asked(15, |numbers| expected::header(&read, numbers));
    assert_eq!(answer, 0);
    let numbers = [9, 2048, 1024, 1, 5, 2, 1, 1, 0, 2, 1, 3, 0x78, 0xD7, OWN];
    assert_eq!(header, numbers);
    let field = |field| asked(6, |numbers| expected::field(&read, field, numbers));
    let (_, first) = field(1);
    let (_, second) = field(2);
    assert_eq!(first[..5], [1, calls::TEXT, 3, 0, 0xD7]);
    assert_eq!(second[..4], [3, calls::SHORT, 2, 3]);
    assert_eq!(second[4], 0xD7 + first[5] + 1);
    for none in [0, 3, 257, 65_537, usize::MAX] {
        assert_eq!(field(none), (13, vec![0; 6]));
    }
}

#[test]
fn cells_and_records() {
    let bytes = example();
    let read = Table::read(&bytes);
    let start = read.as_ref().expect("a table").header.header_size as u64 + 6;
    let cog = [calls::TEXT, start, 3, 0];
    let nut = [calls::TEXT, start + 5, 3, 0];
    let twelve = [calls::SHORT, 12, 0, 0];
    let blank = [calls::BLANK, 0, 0, 0];
    let cell = |place, field| asked(4, |cell| expected::cell(&read, 1, place, field, cell));
    assert_eq!(cell(0, 1), (0, cog.to_vec()));
    assert_eq!(cell(0, 2), (0, twelve.to_vec()));
    assert_eq!(cell(1, 2), (0, blank.to_vec()));
    let record = |place| asked(9, |cells| expected::record(&read, 1, place, cells));
    assert_eq!(record(0), (0, [&cog[..], &twelve, &[OWN]].concat()));
    assert_eq!(record(1), (0, [&nut[..], &blank, &[OWN]].concat()));
    assert_eq!(record(2), (13, vec![0; 9]));
}

#[test]
fn short_buffers() {
    let bytes = example();
    let read = Table::read(&bytes);
    let header = |read: &Read| asked(13, |numbers| expected::header(read, numbers));
    assert_eq!(header(&read), (14, vec![0; 13]));
    assert_eq!(header(&Table::read(&bytes[1..])).1, vec![0; 13]);
    let cell = |room| asked(room, |cell| expected::cell(&read, 9, 9, 9, cell));
    assert_eq!(cell(3), (14, vec![0; 3]));
    assert_eq!(cell(5), (13, vec![0; 5]));
    assert_eq!(asked(7, |cells| expected::record(&read, 1, 0, cells)).0, 14);
    assert_eq!(asked(0, |none| expected::start(&bytes, &read, none)).0, 14);
    assert_eq!(asked(0, |none| expected::step(&bytes, &read, none)).0, 14);
}

#[test]
fn cursors() {
    let mut bytes = example();
    let start = |bytes: &[u8]| {
        asked(2, |cursor| {
            expected::start(bytes, &Table::read(bytes), cursor)
        })
    };
    let step = |bytes: &[u8], cursor: u64| {
        let mut numbers = [cursor, OWN];
        let answer = expected::step(bytes, &Table::read(bytes), &mut numbers);
        assert_eq!(numbers[1], OWN);
        (answer, numbers[0])
    };
    let first = 1 << 16 | 1 << 8;
    let second = first | 1 << 32;
    assert_eq!(start(&bytes), (RECORD, vec![first, OWN]));
    assert_eq!(step(&bytes, first), (RECORD, second));
    assert_eq!(step(&bytes, first | 0xFF77), (RECORD, second));
    assert_eq!(step(&bytes, second), (0, 0));
    assert_eq!(step(&bytes, second & !0xFF00 | 7), (0, 0));
    for forged in [second + (1 << 32), first + (1 << 16), first | 1 << 48 | 9] {
        assert_eq!(step(&bytes, forged), (13, forged));
    }
    let head = Table::read(&bytes).expect("a table").header.header_size;
    put_word(&mut bytes, head, 2);
    assert_eq!(step(&bytes, second | 5), (8, second | 5));
    put_word(&mut bytes, head + LAST_RECORD, 7);
    assert_eq!(step(&bytes, first), (9, first));
    assert_eq!(start(&bytes), (9, vec![0; 2]));
    put_word(&mut bytes, FIRST_BLOCK, 2);
    assert_eq!(start(&bytes), (8, vec![0; 2]));
    put_word(&mut bytes, FIRST_BLOCK, 0);
    assert_eq!(start(&bytes), (0, vec![0, OWN]));
}

#[test]
fn packed_cursors() {
    let cursor = Cursor {
        block: 0x1234,
        place: 0x5678,
        moves: 0x9ABC,
        ended: false,
    };
    assert_eq!(pack_cursor(cursor), 0x9ABC_5678_1234_0100);
    assert_eq!(cursor_of(0x9ABC_5678_1234_8042), cursor);
    assert_eq!(pack_cursor(Cursor::ENDED), 0);
    assert!(cursor_of(0xFFFF_FFFF_FFFF_00FF).ended);
}

/// The answer to a value of a kind, written for a code and a width.
fn answer_to(code: u64, width: usize, what: u64, value: i64) -> u32 {
    let text = b"text";
    let written = Written {
        code,
        width,
        what,
        value: value as u64,
        text,
    };
    expected::write(written, &mut [0; 8])
}

#[test]
fn values_of_no_kind() {
    for (value, answer) in [
        (32_767, 0),
        (-32_767, 0),
        (-32_768, 11),
        (32_768, 13),
        (-32_769, 13),
    ] {
        assert_eq!(answer_to(3, 2, calls::SHORT, value), answer);
    }
    let (least, most) = (i64::from(i32::MIN), i64::from(i32::MAX));
    for (value, answer) in [
        (most, 0),
        (least + 1, 0),
        (least, 11),
        (most + 1, 13),
        (least - 1, 13),
    ] {
        assert_eq!(answer_to(4, 4, calls::LONG, value), answer);
    }
    for (value, answer) in [
        (36_160, 0),
        (36_159, 11),
        (u32::MAX.into(), 11),
        (1 << 32, 13),
        (-1, 13),
    ] {
        assert_eq!(answer_to(2, 4, calls::DATE, value), answer);
    }
    for (value, answer) in [(0, 0), (1, 0), (2, 13), (256, 13), (-1, 13)] {
        assert_eq!(answer_to(9, 1, calls::LOGICAL, value), answer);
    }
}

#[test]
fn values_of_other_kinds() {
    for what in [calls::REFUSED, calls::BLOB, 9, 256 + calls::TEXT, u64::MAX] {
        assert_eq!(answer_to(1, 4, what, 0), 13);
        assert_eq!(answer_to(0x0D, 10, what, 0), 12);
    }
    assert_eq!(answer_to(1, 4, calls::TEXT, 7), 0);
    assert_eq!(answer_to(1, 3, calls::TEXT, 7), 11);
    assert_eq!(answer_to(6, 8, calls::BLANK, 7), 0);
}
