//! Blobs by request 01 of document 02, on cells and MB files laid out by hand.

use brittomaz_tests::calls::expected;
use brittomaz_tests::codes;
use brittomaz_tests::generate::{Shape, StoredField, TableImage, UsedBlock};
use brittomaz_tests::layout::{put_word, LAST_RECORD};
use brittomaz_tests::model::{blob, cell, Blob, Part, Refusal, Table};

const HEADER: usize = 2048;
/// Where the only cell begins: behind the header, a block's head and a text of three bytes.
const CELL: usize = HEADER + 6 + 3;
/// The blob's field.
const FIELD: usize = 2;

/// A table of one record: a text of three bytes, and a blob's cell.
fn table_of(cell: &[u8]) -> Vec<u8> {
    let width = cell.len() as u8;
    let code = if width > 10 { codes::MEMO } else { 0x0D };
    let text = StoredField {
        code: codes::TEXT,
        width: 3,
    };
    let shape = Shape {
        version: 0x09,
        units: 1,
        fields: vec![text, StoredField { code, width }],
        names: vec![b"Part".to_vec(), b"Note".to_vec()],
        key_fields: 1,
        header_size: HEADER,
    };
    let records = [b"cog", cell].concat();
    TableImage {
        shape,
        chain: vec![UsedBlock { number: 1, records }],
        free: Vec::new(),
        junk: None,
    }
    .bytes()
}

/// A cell: leader, offset, length, and a modification number that nobody judges.
fn cell_of(leader: &[u8], offset: u32, length: u32) -> Vec<u8> {
    let (offset, length) = (offset.to_le_bytes(), length.to_le_bytes());
    [leader, &offset, &length, &[0xA5, 0x5A]].concat()
}

fn answer(mb: &[u8], cell: &[u8]) -> Result<Blob, Refusal> {
    blob(&table_of(cell), mb, 1, 0, FIELD)
}

/// The answer to a cell without a leader.
fn answer_to(mb: &[u8], offset: u32, length: u32) -> Result<Blob, Refusal> {
    answer(mb, &cell_of(&[], offset, length))
}

fn in_mb(start: usize, length: usize) -> Result<Blob, Refusal> {
    Ok(Blob::InMb(Part { start, length }))
}

fn in_table(length: usize) -> Result<Blob, Refusal> {
    let start = CELL;
    Ok(Blob::InTable(Part { start, length }))
}

const UNFIT: Result<Blob, Refusal> = Err(Refusal::UnfitBlob);

/// An MB file of so many units of 4,096 bytes, with these bytes at these places.
fn file(units: usize, put: &[(usize, &[u8])]) -> Vec<u8> {
    let mut bytes = vec![0; units * 0x1000];
    for (place, new) in put {
        bytes[*place..place + new.len()].copy_from_slice(new);
    }
    bytes
}

/// A suballocated block at 1000 with one entry, that of 3F, which stands at 12 + 5 × 63 in it.
fn with_entry(entry: &[u8; 5]) -> Vec<u8> {
    file(2, &[(0x1000, &[3, 1, 0]), (0x1000 + 327, entry)])
}

#[test]
fn the_entry_of_the_paper() {
    let mb = with_entry(&[0x25, 0x03, 0x0F, 0x00, 0x07]);
    assert_eq!(answer_to(&mb, 0x103F, 39), in_mb(0x1250, 39));
    let (shorter, longer) = (answer_to(&mb, 0x103F, 38), answer_to(&mb, 0x103F, 40));
    assert_eq!((shorter, longer), (UNFIT, UNFIT));
    assert_eq!(answer_to(&mb, 0x103E, 39), UNFIT);
    let other = with_entry(&[0x25, 0x03, 0xFF, 0xFF, 0x07]);
    assert_eq!(answer_to(&other, 0x103F, 39), in_mb(0x1250, 39));
}

#[test]
fn entries_first_and_last() {
    let first = file(2, &[(0x1000, &[3, 1, 0]), (0x100C, &[0x15, 1, 0, 0, 16])]);
    assert_eq!(answer_to(&first, 0x1000, 16), in_mb(0x1150, 16));
    for number in [0x40, 0x41, 0x7F, 0x80, 0xFE] {
        let mut mb = first.clone();
        let place = 0x100C + 5 * number as usize;
        mb[place..place + 5].copy_from_slice(&[0x50, 1, 0, 0, 16]);
        assert_eq!(answer_to(&mb, 0x1000 | number, 16), UNFIT, "{number:x}");
    }
}

/// 332 bytes of head and entries end inside the chunk at 0140, so the first good one is at 0150.
#[test]
fn bad_entries() {
    for (entry, length) in [
        ([0x25, 0x03, 0, 0, 0x00], 32),
        ([0x25, 0x02, 0, 0, 0x11], 33),
        ([0x25, 0x00, 0, 0, 0x11], 1),
        ([0x25, 0x00, 0, 0, 0x10], 0xFFFF_FFFF),
        ([0x14, 0x03, 0, 0, 0x07], 39),
        ([0x00, 0x03, 0, 0, 0x07], 39),
    ] {
        let mb = with_entry(&entry);
        assert_eq!(answer_to(&mb, 0x103F, length), UNFIT, "{entry:x?}");
    }
    let mb = with_entry(&[0x15, 0x01, 0, 0, 0x10]);
    assert_eq!(answer_to(&mb, 0x103F, 16), in_mb(0x1150, 16));
}

#[test]
fn a_blob_up_to_the_end_of_its_block() {
    let end = |last| with_entry(&[0xFD, 0x03, 0, 0, last]);
    assert_eq!(answer_to(&end(16), 0x103F, 48), in_mb(0x1FD0, 48));
    let behind = file(3, &[(0x1000, &[3, 1, 0]), (0x1147, &[0xFD, 0x04, 0, 0, 1])]);
    assert_eq!(answer_to(&behind, 0x103F, 49), UNFIT);
}

#[test]
fn a_suballocated_block_of_several_units() {
    let entry = [0xFF, 0xFF, 0, 0, 16];
    let mut mb = file(3, &[(0x1000, &[3, 2, 0]), (0x1147, &entry)]);
    assert_eq!(answer_to(&mb, 0x103F, 4080), in_mb(0x1FF0, 4080));
    mb.pop();
    assert_eq!(answer_to(&mb, 0x103F, 4080), UNFIT);
    mb[0x1001] = 1;
    assert_eq!(answer_to(&mb, 0x103F, 4080), UNFIT);
}

/// A block of its own at 2000, of so many units, that states this length.
fn with_own(units: u8, length: u32) -> Vec<u8> {
    let length = length.to_le_bytes();
    let head = [&[2, units, 0], &length[..], &[0x77, 0x88]].concat();
    file(2 + usize::from(units), &[(0x2000, &head)])
}

#[test]
fn a_block_of_its_own() {
    let mb = with_own(1, 4087);
    assert_eq!(answer_to(&mb, 0x20FF, 4087), in_mb(0x2009, 4087));
    for (offset, length) in [(0x20FF, 4086), (0x20FF, 4088), (0x203F, 4087)] {
        assert_eq!(answer_to(&mb, offset, length), UNFIT);
    }
    assert_eq!(answer_to(&with_own(1, 4088), 0x20FF, 4088), UNFIT);
    assert_eq!(
        answer_to(&with_own(2, 4088), 0x20FF, 4088),
        in_mb(0x2009, 4088)
    );
    assert_eq!(answer_to(&with_own(9, 1), 0x20FF, 1), in_mb(0x2009, 1));
    assert_eq!(answer_to(&with_own(1, u32::MAX), 0x20FF, u32::MAX), UNFIT);
}

#[test]
fn a_block_past_the_end() {
    let mut mb = with_own(2, 300);
    assert_eq!(answer_to(&mb, 0x20FF, 300), in_mb(0x2009, 300));
    mb.pop();
    assert_eq!(answer_to(&mb, 0x20FF, 300), UNFIT);
    for length in [
        0, 1, 2, 3, 9, 0x1000, 0x2000, 0x2001, 0x2002, 0x2003, 0x2009,
    ] {
        assert_eq!(answer_to(&mb[..length], 0x20FF, 300), UNFIT, "{length:x}");
    }
    let mut zero = with_own(1, 300);
    zero[0x2001] = 0;
    assert_eq!(answer_to(&zero, 0x20FF, 300), UNFIT);
    zero[0x2002] = 0xFF;
    assert_eq!(answer_to(&zero, 0x20FF, 300), UNFIT);
}

#[test]
fn offsets_off_a_multiple() {
    let entry = [0x25, 0x03, 0, 0, 0x07];
    for bit in 8..12 {
        let base = 0x1000 | 1 << bit;
        let block = [(base, &[3, 1, 0][..]), (base + 327, &entry)];
        let offset = base as u32 | 0x3F;
        assert_eq!(answer_to(&file(3, &block), offset, 39), UNFIT, "{bit}");
    }
    let mb = with_entry(&entry);
    for offset in [0xFFFF_F03F, 0xFFFF_F0FF, 0xFFFF_FFFF, 0x8000_103F] {
        assert_eq!(answer_to(&mb, offset, 39), UNFIT, "{offset:x}");
    }
}

/// Blocks are not walked: what stands at the base decides, also at 0 and inside another block.
#[test]
fn any_base() {
    let own = [2, 1, 0, 5, 0, 0, 0, 0, 0];
    assert_eq!(answer_to(&file(1, &[(0, &own)]), 0xFF, 5), in_mb(9, 5));
    assert_eq!(answer_to(&file(1, &[]), 0xFF, 5), UNFIT);
    let inside = file(4, &[(0x1000, &[4, 3, 0]), (0x2000, &own)]);
    assert_eq!(answer_to(&inside, 0x20FF, 5), in_mb(0x2009, 5));
}

#[test]
fn kinds_and_numbers() {
    for kind in [0, 1, 2, 3, 4, 0xFF] {
        let head = [kind, 1, 0, 5, 0, 0, 0];
        let entry = [0x25, 0x01, 0, 0, 5];
        let mb = file(2, &[(0x1000, &head), (0x1147, &entry)]);
        let own = if kind == 2 { in_mb(0x1009, 5) } else { UNFIT };
        let sub = if kind == 3 { in_mb(0x1250, 5) } else { UNFIT };
        assert_eq!(answer_to(&mb, 0x10FF, 5), own, "{kind}");
        assert_eq!(answer_to(&mb, 0x103F, 5), sub, "{kind}");
    }
}

#[test]
fn leaders() {
    let mb = with_own(1, 25);
    let leader = [b'x'; 24];
    let with_length = |length| answer(&mb, &cell_of(&leader, 0x20FF, length));
    assert_eq!(with_length(23), in_table(23));
    assert_eq!(with_length(24), in_table(24));
    assert_eq!(with_length(25), in_mb(0x2009, 25));
    assert_eq!(with_length(26), UNFIT);
    assert_eq!(with_length(0), in_table(0));
    assert_eq!(with_length(24 + 0x0100_0000), UNFIT);
    let unjudged = cell_of(&leader, 0xFFFF_FFFE, 24);
    assert_eq!(answer(&[], &unjudged), in_table(24));
    assert_eq!(answer(&[], &cell_of(&[b'x'; 240], 0, 240)), in_table(240));
    assert_eq!(answer(&[], &cell_of(&[b'x'; 240], 0, 241)), UNFIT);
}

#[test]
fn blanks() {
    for width in [10, 11, 250] {
        assert_eq!(answer(&[], &vec![0; width]), Ok(Blob::Blank));
        for place in 0..width {
            let mut cell = vec![0; width];
            cell[place] = 1;
            let length = usize::from(place == width - 6);
            let long = (width - 5..width - 2).contains(&place) || length > width - 10;
            let expected = if long { UNFIT } else { in_table(length) };
            assert_eq!(answer(&[], &cell), expected, "byte {place} of {width}");
        }
    }
}

#[test]
fn refusals_before_the_blob() {
    let mut table = table_of(&cell_of(&[], 1, 1));
    let asked = |table: &[u8], block, place, field| blob(table, &[], block, place, field);
    assert_eq!(asked(&table, 1, 0, 2), UNFIT);
    let beyond = usize::MAX;
    for (block, place, field) in [
        (0, 0, 2),
        (2, 0, 2),
        (1, 1, 2),
        (1, 0, 0),
        (1, 0, 1),
        (1, 0, 3),
        (beyond, beyond, beyond),
    ] {
        assert_eq!(asked(&table, block, place, field), Err(Refusal::Argument));
    }
    put_word(&mut table, HEADER + LAST_RECORD, 7);
    assert_eq!(asked(&table, 1, 9, 2), Err(Refusal::Count));
    assert_eq!(asked(&table, 1, 0, 1), Err(Refusal::Argument));
    assert_eq!(asked(&table, 2, 0, 2), Err(Refusal::Argument));
    assert_eq!(asked(&table[1..], 1, 0, 1), asked(&table[1..], 0, 0, 0));
    assert_eq!(asked(&table[..119], 0, 0, 0), Err(Refusal::Short));
    assert_eq!(
        asked(&[&table[..], &[0]].concat(), 0, 0, 0),
        Err(Refusal::Length)
    );
}

/// Cells by themselves are still refused, blank ones too.
#[test]
fn cells_without_an_mb_file() {
    for stored in [vec![0; 34], cell_of(&[b'x'; 24], 0, 3)] {
        assert_eq!(cell(&table_of(&stored), 1, 0, FIELD), Err(Refusal::Blob));
    }
}

#[test]
fn numbers_of_the_call() {
    const OWN: u64 = 0xA5A5;
    let (mb, leader) = (with_own(1, 25), [b'x'; 24]);
    let ask = |cell: &[u8], room| {
        let (table, mut part) = (table_of(cell), vec![OWN; room]);
        let read = Table::read(&table);
        let answer = expected::blob(&read, &mb, 1, 0, FIELD, &mut part);
        (answer, part)
    };
    let long = cell_of(&leader, 0x20FF, 25);
    assert_eq!(ask(&long, 2), (0x200, vec![0x2009, 25]));
    assert_eq!(ask(&long, 4), (0x200, vec![0x2009, 25, OWN, OWN]));
    assert_eq!(ask(&long, 1), (14, vec![0]));
    assert_eq!(ask(&long, 0), (14, vec![]));
    let short = cell_of(&leader, 0, 5);
    assert_eq!(ask(&short, 3), (0x100, vec![CELL as u64, 5, OWN]));
    assert_eq!(ask(&[0; 34], 3), (0, vec![0, 0, OWN]));
    assert_eq!(ask(&cell_of(&leader, 0x20FF, 26), 3), (18, vec![0; 3]));
    let cut = table_of(&long);
    let mut part = [OWN];
    let answer = expected::blob(&Table::read(&cut[..99]), &mb, 1, 0, FIELD, &mut part);
    assert_eq!((answer, part), (1, [0]));
}
