//! The model on the worked examples of document 01, its doubles by request 02 of document 02.

use brittomaz_tests::calls;
use brittomaz_tests::codes;
use brittomaz_tests::generate::{Shape, StoredField, TableImage, UsedBlock};
use brittomaz_tests::layout::{put_word, LAST_RECORD};
use brittomaz_tests::model::{
    cell, listing, table_check, write, Cell, Field, Part, Refusal, Table, Value,
};

const HEADER: usize = 2048;

/// A table of one block with one field.
fn one_field(version: u8, code: u8, width: u8, records: Vec<u8>) -> TableImage {
    let shape = Shape {
        version,
        units: 1,
        fields: vec![StoredField { code, width }],
        names: vec![b"cell".to_vec()],
        key_fields: 0,
        header_size: HEADER,
    };
    let number = 1;
    TableImage {
        shape,
        chain: vec![UsedBlock { number, records }],
        free: Vec::new(),
        junk: None,
    }
}

/// The answer to a block's third word in a table of five-byte records.
fn answer_to_count(third: i16, records: usize) -> Option<Refusal> {
    let mut bytes = one_field(0x09, codes::TEXT, 5, vec![b'x'; 5 * records]).bytes();
    put_word(&mut bytes, HEADER + LAST_RECORD, third as u16);
    table_check(&bytes, &mut [0]).err()
}

#[test]
fn counts() {
    assert_eq!(answer_to_count(1010, 203), None);
    assert_eq!(answer_to_count(-5, 0), None);
    for third in [1015, 7, -10] {
        assert_eq!(answer_to_count(third, 203), Some(Refusal::Count));
        assert_eq!(answer_to_count(third, 0), Some(Refusal::Count));
    }
    assert_eq!(answer_to_count(1010, 202), Some(Refusal::Count));
}

fn read(code: u8, stored: &[u8]) -> Result<Cell, Refusal> {
    let field = Field::from_stored(code, stored.len() as u8);
    field.expect("a permitted width").read(stored, 0)
}

/// What is written for a code and a width into a buffer of just that width.
fn written(code: u8, width: usize, value: Value) -> Result<Vec<u8>, Refusal> {
    let mut buffer = vec![7; width];
    write(code.into(), width, Some(value), &mut buffer).map(|()| buffer)
}

/// Stored bytes, what they are read as, and the value that is written as them.
type BothWays = (u8, &'static [u8], Cell, Value<'static>);

const DATES: [BothWays; 3] = [
    (
        codes::DATE,
        &[0x80, 0x0B, 0x1E, 0xCF],
        Cell::Date(728_783),
        Value::Date(728_783),
    ),
    (
        codes::DATE,
        &[0x80, 0x00, 0x8D, 0x40],
        Cell::Date(36_160),
        Value::Date(36_160),
    ),
    (
        codes::DATE,
        &[0x80, 0x37, 0xB9, 0xDB],
        Cell::Date(3_652_059),
        Value::Date(3_652_059),
    ),
];
const SHORTS: [BothWays; 4] = [
    (codes::SHORT, &[0x80, 0x01], Cell::Short(1), Value::Short(1)),
    (
        codes::SHORT,
        &[0x82, 0x00],
        Cell::Short(512),
        Value::Short(512),
    ),
    (
        codes::SHORT,
        &[0x7F, 0xFF],
        Cell::Short(-1),
        Value::Short(-1),
    ),
    (codes::SHORT, &[0, 0], Cell::Blank, Value::Blank),
];
const ONE: &[u8] = &[0xBF, 0xF0, 0, 0, 0, 0, 0, 0];
const MOST: &[u8] = &[0xFF, 0xEF, 0xFF, 0xFF, 0xFF, 0xFF, 0xFF, 0xFF];
const NUMBERS: [BothWays; 2] = [
    (codes::NUMBER, ONE, Cell::Double(1.0), Value::Double(1.0)),
    (
        codes::NUMBER,
        MOST,
        Cell::Double(f64::MAX),
        Value::Double(f64::MAX),
    ),
];
const REFUSED: [(u8, &[u8]); 4] = [
    (codes::DATE, &[0x80, 0x00, 0x8D, 0x3F]),
    (codes::DATE, &[0x80, 0x37, 0xB9, 0xDC]),
    (codes::NUMBER, &[0xFF, 0xF0, 0, 0, 0, 0, 0, 0]),
    (codes::LOGICAL, &[0x82]),
];

#[test]
fn cells_to_prove() {
    let dates_and_shorts = DATES.into_iter().chain(SHORTS);
    for (code, stored, cell, value) in dates_and_shorts.chain(NUMBERS) {
        assert_eq!(read(code, stored), Ok(cell));
        assert_eq!(written(code, stored.len(), value), Ok(stored.to_vec()));
    }
    for (code, stored) in REFUSED {
        assert_eq!(read(code, stored), Err(Refusal::Meaningless));
    }
}

#[test]
fn logicals() {
    for (stored, truth) in [(0x80, false), (0x81, true)] {
        assert_eq!(read(codes::LOGICAL, &[stored]), Ok(Cell::Logical(truth)));
        let again = written(codes::LOGICAL, 1, Value::Logical(truth));
        assert_eq!(again, Ok(vec![stored]));
    }
}

#[test]
fn texts_and_blobs() {
    let whole = Ok(Cell::Text(Part {
        start: 0,
        length: 3,
    }));
    assert_eq!(read(codes::TEXT, b"cog\0\0"), whole);
    assert_eq!(read(codes::TEXT, b"cog"), whole);
    assert_eq!(read(codes::TEXT, b"c\0g"), Err(Refusal::Meaningless));
    assert_eq!(read(codes::TEXT, b"\0og"), Err(Refusal::Meaningless));
    assert_eq!(read(codes::FIRST_BLOB, &[0; 10]), Err(Refusal::Blob));
}

#[test]
fn texts_written() {
    let text = |width, text| written(codes::TEXT, width, Value::Text(text));
    assert_eq!(text(5, b"cog"), Ok(b"cog\0\0".to_vec()));
    assert_eq!(text(3, b"cog"), Ok(b"cog".to_vec()));
    for refused in [&b""[..], b"cogs", b"c\0g", b"\0"] {
        assert_eq!(text(3, refused), Err(Refusal::Meaningless));
    }
}

#[test]
fn no_stored_form() {
    let refused = Err(Refusal::Meaningless);
    assert_eq!(written(codes::SHORT, 2, Value::Short(i16::MIN)), refused);
    assert_eq!(written(codes::LONG, 4, Value::Long(i32::MIN)), refused);
    for day in [0, 36_159, 3_652_060, u32::MAX] {
        assert_eq!(written(codes::DATE, 4, Value::Date(day)), refused);
    }
    for number in [f64::INFINITY, f64::NEG_INFINITY, f64::NAN, -f64::NAN] {
        assert_eq!(written(codes::CURRENCY, 8, Value::Double(number)), refused);
    }
}

const LEAST_SUBNORMAL: f64 = f64::from_bits(1);
const GREATEST_SUBNORMAL: f64 = f64::from_bits(0x000F_FFFF_FFFF_FFFF);

/// Stored numbers in the order of their bytes, on both sides of each limit, and the doubles that they
/// are; `None` where they are refused.
const DOUBLES: [(u64, Option<f64>); 20] = [
    (0x0000_0000_0000_0001, None),
    (0x0007_FFFF_FFFF_FFFF, None),
    (0x000F_FFFF_FFFF_FFFE, None),
    (0x000F_FFFF_FFFF_FFFF, None),
    (0x0010_0000_0000_0000, Some(f64::MIN)),
    (0x400F_FFFF_FFFF_FFFF, Some(-1.0)),
    (0x7FEF_FFFF_FFFF_FFFF, Some(-f64::MIN_POSITIVE)),
    (0x7FF0_0000_0000_0000, Some(-GREATEST_SUBNORMAL)),
    (0x7FFF_FFFF_FFFF_FFFE, Some(-LEAST_SUBNORMAL)),
    (0x7FFF_FFFF_FFFF_FFFF, Some(-0.0)),
    (0x8000_0000_0000_0000, Some(0.0)),
    (0x8000_0000_0000_0001, Some(LEAST_SUBNORMAL)),
    (0x800F_FFFF_FFFF_FFFF, Some(GREATEST_SUBNORMAL)),
    (0x8010_0000_0000_0000, Some(f64::MIN_POSITIVE)),
    (0xBFF0_0000_0000_0000, Some(1.0)),
    (0xFFEF_FFFF_FFFF_FFFF, Some(f64::MAX)),
    (0xFFF0_0000_0000_0000, None),
    (0xFFF0_0000_0000_0001, None),
    (0xFFF8_0000_0000_0000, None),
    (0xFFFF_FFFF_FFFF_FFFF, None),
];

/// Zero and negative zero are equal as doubles: bits are compared.
#[test]
fn doubles_and_their_stored_forms() {
    for (stored, double) in DOUBLES {
        let bytes = stored.to_be_bytes();
        let numbers = double.map(|double| [calls::NUMBER, double.to_bits(), 0, 0]);
        for code in [codes::CURRENCY, codes::NUMBER] {
            let cell = read(code, &bytes).map(calls::pack_cell);
            assert_eq!(cell, numbers.ok_or(Refusal::Meaningless), "{stored:016x}");
            if let Some(double) = double {
                let again = written(code, 8, Value::Double(double));
                assert_eq!(again, Ok(bytes.to_vec()));
            }
        }
    }
    assert_eq!(read(codes::NUMBER, &[0; 8]), Ok(Cell::Blank));
}

#[test]
fn order_of_writing() {
    let answer = |code, width, value, room| {
        let mut buffer = vec![7; room];
        let answer = write(code, width, value, &mut buffer).err();
        assert!(answer.is_none() || buffer == vec![7; room]);
        answer
    };
    let (short, memo) = (codes::SHORT.into(), codes::MEMO.into());
    let (good, unstored) = (Some(Value::Short(1)), Some(Value::Short(i16::MIN)));
    assert_eq!(answer(0, 2, good, 2), Some(Refusal::Argument));
    assert_eq!(answer(256 + short, 2, good, 2), Some(Refusal::Argument));
    assert_eq!(answer(short, 258, good, 300), Some(Refusal::Argument));
    assert_eq!(answer(memo, 10, None, 0), Some(Refusal::Argument));
    assert_eq!(answer(memo, 11, None, 0), Some(Refusal::Blob));
    assert_eq!(
        answer(memo, 11, Some(Value::Blank), 11),
        Some(Refusal::Blob)
    );
    assert_eq!(
        answer(short, 2, Some(Value::Long(1)), 1),
        Some(Refusal::Argument)
    );
    assert_eq!(answer(short, 2, None, 1), Some(Refusal::Argument));
    assert_eq!(answer(short, 2, unstored, 1), Some(Refusal::Buffer));
    assert_eq!(answer(short, 2, unstored, 2), Some(Refusal::Meaningless));
    assert_eq!(answer(short, 2, good, 2), None);
    assert_eq!(
        answer(codes::LONG.into(), 4, Some(Value::Date(40_000)), 4),
        Some(Refusal::Argument)
    );
    assert_eq!(
        answer(codes::CURRENCY.into(), 8, Some(Value::Double(1.0)), 8),
        None
    );
}

#[test]
fn bytes_behind_the_width() {
    let mut buffer = *b"........";
    let value = Some(Value::Text(b"cog"));
    assert_eq!(write(codes::TEXT.into(), 5, value, &mut buffer), Ok(()));
    assert_eq!(&buffer, b"cog\0\0...");
}

#[test]
fn cells_asked_for() {
    let mut bytes = one_field(0x04, codes::SHORT, 2, vec![0x80, 0x01, 0x80, 0x02]).bytes();
    assert_eq!(cell(&bytes, 1, 1, 1), Ok(Cell::Short(2)));
    let far = [65_537, 1 << 32 | 1, 1 << 54 | 1, usize::MAX];
    let blocks = [0, 2].into_iter().chain(far).map(|block| (block, 0, 1));
    let places = [2, 1 << 63]
        .into_iter()
        .chain(far)
        .map(|place| (1, place, 1));
    let fields = [0, 2, 257]
        .into_iter()
        .chain(far)
        .map(|field| (1, 0, field));
    for (block, place, field) in blocks.chain(places).chain(fields) {
        assert_eq!(cell(&bytes, block, place, field), Err(Refusal::Argument));
    }
    put_word(&mut bytes, HEADER + LAST_RECORD, 3);
    assert_eq!(cell(&bytes, 1, 0, 1), Err(Refusal::Count));
    assert_eq!(cell(&bytes, 1, usize::MAX, 1), Err(Refusal::Count));
    assert_eq!(cell(&bytes, 1, 0, 2), Err(Refusal::Argument));
    assert_eq!(cell(&bytes, 2, 0, 1), Err(Refusal::Argument));
}

#[test]
fn records_and_their_texts() {
    let bytes = one_field(0x09, codes::TEXT, 3, b"cognut\0\0\0c\0g".to_vec()).bytes();
    let table = Table::read(&bytes).expect("a table");
    let cells = |place| {
        let cells = table.record(1, place).map(Iterator::collect);
        cells.map(|cells: Vec<_>| cells)
    };
    let start = HEADER + 6 + 3;
    let text = Part { start, length: 3 };
    assert_eq!(cells(1), Ok(vec![Ok(Cell::Text(text))]));
    assert_eq!(table.part(text), b"nut");
    assert_eq!(cells(2), Ok(vec![Ok(Cell::Blank)]));
    assert_eq!(cells(3), Ok(vec![Err(Refusal::Meaningless)]));
    assert_eq!(cells(4), Err(Refusal::Argument));
}

#[test]
fn names_begin_where_the_paper_says() {
    use brittomaz_tests::layout::names;
    assert_eq!(names(0x09, 2), 0xD7);
    assert_eq!(names(0x04, 2), 0xB7);
}

#[test]
fn refused_listings() {
    assert_eq!(listing(&[]), b"refused 1\n");
    assert_eq!(listing(&vec![0; 65_536]), b"refused 3\n");
    assert_eq!(listing(&vec![0; 65_537]), b"refused 14\n");
}
