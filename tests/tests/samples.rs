//! The samples are what they are said to be.

use brittomaz_tests::calls::check_number;
use brittomaz_tests::layout::LEVELS;
use brittomaz_tests::mb::{entry_start, FREE, HEADER, OWN, SUBALLOCATED, UNIT};
use brittomaz_tests::model::{blob, listing, pair_check, table_check, Blob, Part};
use brittomaz_tests::samples::samples;

fn sample(name: &str) -> Vec<u8> {
    let found = samples().into_iter().find(|(named, _)| *named == name);
    found.expect("a sample").1
}

fn table_number(name: &str) -> u32 {
    check_number(&table_check(&sample(name), &mut [0; 64]))
}

fn pair_number(table: &str, index: &str) -> u32 {
    check_number(&pair_check(&sample(table), &sample(index), &mut [0; 64]))
}

#[test]
fn answers() {
    for accepted in [
        "parts.db",
        "example.db",
        "tides.db",
        "number.db",
        "notes.db",
    ] {
        assert_eq!(table_number(accepted), 0, "{accepted}");
    }
    assert_eq!(table_number("torn.db"), 6);
    assert_eq!(table_number("loop.db"), 8);
    assert_eq!(pair_number("parts.db", "parts.px"), 0);
    assert_eq!(pair_number("parts.db", "stale.px"), 27);
    assert_eq!(sample("parts.px")[LEVELS], 2);
}

#[test]
fn small_enough() {
    assert!(samples().iter().all(|(_, bytes)| bytes.len() <= 16_384));
}

#[test]
fn the_example_of_the_paper() {
    let expected = "fields 2 key 1 records 2\n1.0|cog|12\n1.1|nut|\n";
    assert_eq!(listing(&sample("example.db")), expected.as_bytes());
}

/// A tide below the mark: a negative number.
#[test]
fn negative_number() {
    let listed = String::from_utf8(listing(&sample("tides.db"))).expect("text");
    let metres = format!("{:016x}", (-0.15_f64).to_bits());
    assert!(listed.ends_with(&format!("|{metres}|slipway\n")));
}

#[test]
fn no_number() {
    let listed = String::from_utf8(listing(&sample("number.db"))).expect("text");
    assert!(listed.contains("\n1.1|2|!11\n"));
}

/// The notes' MB file: its blocks' kinds, the entry of source document 001, and a deleted one.
#[test]
fn blocks_of_the_notes() {
    let mb = sample("notes.mb");
    let kinds = mb.chunks(UNIT).map(|block| block[0]);
    assert!(kinds.eq([HEADER, SUBALLOCATED, FREE, OWN]));
    let entry = |number| &mb[UNIT + entry_start(number)..][..5];
    assert_eq!(entry(0x3C), [0x25, 0x03, 0x0F, 0x00, 0x07]);
    assert_eq!(entry(0x3D)[4], 0);
    assert_eq!(entry(0x38), [0; 5]);
}

/// The notes and the marks of the suppliers, in chain order.
#[test]
fn notes_and_marks() {
    let (table, mb) = (sample("notes.db"), sample("notes.mb"));
    let held = |block, place, field| blob(&table, &mb, block, place, field).expect("a blob");
    let text = |block, place, field| match held(block, place, field) {
        Blob::Blank => None,
        Blob::InTable(Part { start, length }) => Some((false, &table[start..start + length])),
        Blob::InMb(Part { start, length }) => Some((true, &mb[start..start + length])),
    };
    let first: Vec<_> = (0..5).map(|place| text(2, place, 4)).collect();
    assert_eq!(first[1], Some((false, &b"Pays carriage. Ask Joan."[..])));
    assert_eq!(first[2], None);
    let hemp = b"Closed in August. Order tarred by July.";
    assert_eq!(first[3], Some((true, &hemp[..])));
    let (_, lamps) = first[4].expect("a note");
    assert!([b',', b'"', b'\n'].iter().all(|byte| lamps.contains(byte)));
    let (in_mb, list) = text(1, 0, 4).expect("a note");
    assert!(in_mb && list.len() > 2048);
    assert_eq!(text(1, 1, 4), Some((false, &b"Tins only."[..])));
    let marks = (0..5).map(|place| text(2, place, 5));
    assert_eq!(marks.flatten().count(), 1);
    assert_eq!(text(2, 0, 5).expect("a mark").1.len(), 32);
}
