//! Key lists: the first fields of keyed tables, gone through by a cursor, come in the order of their numbers.

use crate::kind::{Kind, KINDS};
use crate::side::SIDES;
use crate::value::Value;
use brittomaz_tests::calls::table_check;
use brittomaz_tests::generate::{table, TableImage};
use brittomaz_tests::random::Random;
use std::collections::{BTreeMap, BTreeSet};

const SEED: u64 = 4;
const TABLES: u64 = 4000;
/// Room for the marks of any generated table.
const MARKS: usize = 256;
/// Each side sees each feature in at least so many tables of each kind that can have it.
const LEAST_SEEN: usize = 20;

/// The first fields of a table's records in chain order; none where a cell has no meaning.
struct KeyList {
    cells: Vec<Option<Value>>,
    /// Whether the key has one field, so that no cell comes twice.
    one_field: bool,
}

impl KeyList {
    /// Request 03 of the list: no value is before a lesser one, blanks are first of all, and no cell without meaning
    /// has numbers on both sides.
    fn is_in_order(&self) -> bool {
        let may_follow = |one: Value, other: Value| {
            one.comes_before(other) || !self.one_field && one.is_same(other)
        };
        let mut behind_blanks = self.cells.iter().skip_while(|cell| is_blank(cell));
        let from_numbers = self.cells.iter().skip_while(|cell| !is_number(cell));
        let mut behind_numbers = from_numbers.skip_while(|cell| is_number(cell));
        !self.has_pair(|one, other| !may_follow(one, other))
            && !behind_blanks.any(is_blank)
            && !behind_numbers.any(is_number)
    }

    /// Whether there are two values, one next behind the other, of which this is true. Cells without meaning are
    /// passed over.
    fn has_pair(&self, which: impl Fn(Value, Value) -> bool) -> bool {
        let values: Vec<Value> = self.cells.iter().copied().flatten().collect();
        values.windows(2).any(|pair| which(pair[0], pair[1]))
    }

    fn has_zeros(&self) -> bool {
        self.has_pair(Value::is_negative_zero_before)
    }

    /// Whether there are two cells, one right behind the other, of which this is true.
    fn has_cells(&self, which: impl Fn(&Option<Value>, &Option<Value>) -> bool) -> bool {
        self.cells.windows(2).any(|pair| which(&pair[0], &pair[1]))
    }
}

fn is_blank(cell: &Option<Value>) -> bool {
    *cell == Some(Value::Blank)
}

fn is_number(cell: &Option<Value>) -> bool {
    cell.is_some_and(Value::is_number)
}

/// What is to come up in key lists: its name, which kinds of first field permit it, and which lists have it.
type Feature = (&'static str, fn(&Kind) -> bool, fn(&KeyList) -> bool);

const FEATURES: [Feature; 7] = [
    (
        "numbers under one key field",
        |_| true,
        |list| list.one_field && list.has_pair(|one, other| one.is_number() && one < other),
    ),
    (
        "a number that repeats",
        |_| true,
        |list| list.has_pair(|one, other| one.is_number() && one.is_same(other)),
    ),
    (
        "both zeros under one key field",
        Kind::has_two_zeros,
        |list| list.one_field && list.has_zeros(),
    ),
    (
        "both zeros under several key fields",
        Kind::has_two_zeros,
        |list| !list.one_field && list.has_zeros(),
    ),
    (
        "a blank before a number",
        |_| true,
        |list| list.has_pair(|one, other| !one.is_number() && other.is_number()),
    ),
    (
        "no meaning before a number",
        Kind::has_refused_before,
        |list| list.has_cells(|one, other| one.is_none() && is_number(other)),
    ),
    (
        "no meaning behind a number",
        Kind::has_refused_behind,
        |list| list.has_cells(|one, other| is_number(one) && other.is_none()),
    ),
];

/// In how many tables each feature was seen: by a side, among those of a type code.
type Seen = BTreeMap<(&'static str, u8, &'static str), usize>;

/// The library accepts a table, and its key list is in order, by the library and by the model.
fn assert_in_order(case: u64, image: &TableImage, seen: &mut Seen) {
    let bytes = image.bytes();
    assert_eq!(
        table_check(&bytes, &mut [0; MARKS]),
        0,
        "seed {SEED}, case {case}"
    );
    let code = image.shape.fields[0].code;
    for side in &SIDES {
        let list = KeyList {
            cells: side.first_cells(&bytes),
            one_field: image.shape.key_fields == 1,
        };
        let (name, cells) = (side.name, &list.cells);
        let right = list.is_in_order();
        assert!(right, "{name}, seed {SEED}, case {case}: {cells:?}");
        for (feature, _, _) in FEATURES.iter().filter(|(_, _, has)| has(&list)) {
            *seen.entry((name, code, feature)).or_default() += 1;
        }
    }
}

/// Gives a table other keys. Half of them begin with one of a few cells, a blank and both zeros among these; old keys
/// make up the number.
fn change_keys(image: &mut TableImage, kind: &Kind, random: &mut Random) {
    let (size, length) = (image.shape.record_size(), image.shape.key_length());
    let records = image
        .chain
        .iter()
        .flat_map(|block| block.records.chunks_exact(size));
    let old: Vec<Vec<u8>> = records.map(|record| record[..length].to_vec()).collect();
    let count = old.len();
    let any = [0; 4].map(|_| kind.any_stored(random));
    let few = [&[0, kind.zero() - 1, kind.zero()], &any[..]].concat();
    let mut keys = BTreeSet::new();
    for _ in 0..count.div_ceil(2) {
        let mut key = random.bytes(length);
        key[..kind.width.into()].copy_from_slice(&kind.bytes(random.pick(&few)));
        keys.insert(key);
    }
    for key in old {
        if keys.len() < count {
            keys.insert(key);
        }
    }
    let records = image
        .chain
        .iter_mut()
        .flat_map(|block| block.records.chunks_exact_mut(size));
    for (record, key) in records.zip(keys) {
        record[..length].copy_from_slice(&key);
    }
}

/// Of each generated table that is keyed by numbers, as it is and with other keys.
#[test]
fn key_lists_in_order() {
    let mut seen = Seen::new();
    for case in 0..TABLES {
        let mut random = Random::of_case(SEED, case);
        let mut image = table(&mut random);
        let kind = Kind::of(image.shape.fields[0].code);
        let Some(kind) = kind.filter(|_| image.shape.key_fields > 0) else {
            continue;
        };
        assert_in_order(case, &image, &mut seen);
        change_keys(&mut image, kind, &mut random);
        assert_in_order(case, &image, &mut seen);
    }
    assert_all_seen(&seen);
}

/// Both sides have seen whatever there can be.
fn assert_all_seen(seen: &Seen) {
    for kind in &KINDS {
        for (feature, _, _) in FEATURES.iter().filter(|(_, permit, _)| permit(kind)) {
            for side in &SIDES {
                let wanted = (side.name, kind.code, *feature);
                let count = seen.get(&wanted).copied().unwrap_or(0);
                assert!(count >= LEAST_SEEN, "{wanted:?}: {count} tables");
            }
        }
    }
}

#[test]
fn lists_out_of_order() {
    let number = |double| Some(Value::Double(double));
    let blank = Some(Value::Blank);
    let wrong = [
        vec![number(-1.0), number(-2.0)],
        vec![number(0.0), number(-0.0)],
        vec![number(1.0), None, number(0.0)],
        vec![number(1.0), None, number(2.0)],
        vec![number(1.0), blank],
        vec![None, blank],
    ];
    for cells in wrong {
        let one_field = false;
        assert!(!KeyList { cells, one_field }.is_in_order());
    }
    for (one_field, right) in [(true, false), (false, true)] {
        let cells = vec![blank, None, number(1.0), number(1.0), None];
        assert_eq!(KeyList { cells, one_field }.is_in_order(), right);
    }
}
