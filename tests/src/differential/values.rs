//! Which values to write: for every type code, at and beyond every limit, and some of no kind.

use crate::calls::{self, kind_number, Written};
use crate::codes;
use crate::generate::{self, StoredField};
use crate::model::Field;
use crate::random::Random;
use std::ops::RangeInclusive;

/// The highest type code and two more.
const HIGHEST_CODE: usize = codes::LAST_BLOB as usize + 2;
/// The width up to which texts and buffers are made to fit: beyond that of any cell.
const MOST_LENGTH: usize = 300;
/// Days that a date can be.
const ALL_DAYS: RangeInclusive<usize> = 36_160..=3_652_059;
const WIDTHS: [usize; 12] = [0, 1, 2, 4, 8, 9, 10, 11, 250, 251, 255, 256];
const SHORTS: [i64; 8] = [0, 1, -1, 32_767, -32_767, -32_768, 32_768, -32_769];
const LONGS: [i64; 8] = [
    0,
    1,
    -1,
    i32::MAX as i64,
    i32::MIN as i64 + 1,
    i32::MIN as i64,
    i32::MAX as i64 + 1,
    i32::MIN as i64 - 1,
];
const DAYS: [i64; 9] = [
    36_159,
    36_160,
    728_783,
    3_652_059,
    3_652_060,
    0,
    1,
    -36_160,
    u32::MAX as i64,
];
const TRUTHS: [i64; 6] = [0, 1, 0, 1, 2, -1];
/// Doubles of either sign: zero, the least and the greatest subnormal one, the least normal one, 1, the
/// greatest, infinity, and those that are no numbers.
const DOUBLES: [u64; 20] = [
    0x0000_0000_0000_0000,
    0x8000_0000_0000_0000,
    0x0000_0000_0000_0001,
    0x8000_0000_0000_0001,
    0x000F_FFFF_FFFF_FFFF,
    0x800F_FFFF_FFFF_FFFF,
    0x0010_0000_0000_0000,
    0x8010_0000_0000_0000,
    0x3FF0_0000_0000_0000,
    0xBFF0_0000_0000_0000,
    0x7FEF_FFFF_FFFF_FFFF,
    0xFFEF_FFFF_FFFF_FFFF,
    0x7FF0_0000_0000_0000,
    0xFFF0_0000_0000_0000,
    0x7FF0_0000_0000_0001,
    0xFFF0_0000_0000_0001,
    0x7FF8_0000_0000_0000,
    0xFFF8_0000_0000_0000,
    0x7FFF_FFFF_FFFF_FFFF,
    0xFFFF_FFFF_FFFF_FFFF,
];

/// A value to be written, its text apart.
pub fn any_written<'a>(random: &mut Random) -> Written<'a> {
    let stored = generate::any_field(random);
    let what = any_what(random, stored);
    Written {
        code: any_code(random, stored.code.into()),
        width: any_width(random, stored.width.into()),
        what,
        value: any_value(random, what),
        text: &[],
    }
}

/// What a value is: most often what the field's cells are, else something else or nothing.
fn any_what(random: &mut Random, stored: StoredField) -> u64 {
    let field = Field::from_stored(stored.code, stored.width);
    let own = field.map_or(calls::BLANK, |field| kind_number(field.kind));
    match random.below(100) {
        0..=79 => own,
        80..=86 => calls::BLANK,
        87..=96 => random.within(0..=9) as u64,
        _ => beyond(random, own),
    }
}

/// A type code: most often this one, else one beside all that there are, or far from them.
fn any_code(random: &mut Random, code: u64) -> u64 {
    match random.below(100) {
        0..=87 => code,
        88..=94 => random.within(0..=HIGHEST_CODE) as u64,
        95..=96 => random.byte().into(),
        _ => beyond(random, code),
    }
}

/// A width: most often this one, else one beside it, a limit of some kind, or far from them.
fn any_width(random: &mut Random, width: usize) -> usize {
    match random.below(100) {
        0..=84 => width,
        85..=88 => width.wrapping_add(random.pick(&[1, usize::MAX])),
        89..=94 => random.pick(&WIDTHS),
        _ => beyond(random, width as u64) as usize,
    }
}

/// A number that would be this one if it were cut to fewer bits, or any other.
fn beyond(random: &mut Random, number: u64) -> u64 {
    let more = number | 1 << random.pick(&[8, 16, 32, 63]);
    let any = random.bits();
    random.pick(&[more, more, u64::MAX, any])
}

/// A value: most often one at a limit of its kind, else any number of 8 to 64 bits, or a day.
pub fn any_value(random: &mut Random, what: u64) -> u64 {
    let bits = random.bits();
    let few = random.pick(&[bits as i8 as i64, bits as i16 as i64, bits as i32 as i64]) as u64;
    let value = match what {
        calls::SHORT => random.pick(&SHORTS) as u64,
        calls::LONG => random.pick(&LONGS) as u64,
        calls::DATE => random.pick(&DAYS) as u64,
        calls::LOGICAL => random.pick(&TRUTHS) as u64,
        calls::NUMBER => random.pick(&DOUBLES),
        _ => bits,
    };
    match random.below(100) {
        0..=64 => value,
        65..=84 => few,
        85..=92 => bits,
        93..=96 => value ^ 1 << random.below(64),
        _ => random.within(ALL_DAYS) as u64,
    }
}

/// A text for a width: of any length up to it and a little more, at times with a zero in it.
pub fn any_text(random: &mut Random, width: usize) -> Vec<u8> {
    let width = width.min(MOST_LENGTH);
    let any = random.below(width + 2);
    let lengths = [
        any,
        any,
        width,
        width,
        width + 1,
        width.saturating_sub(1),
        0,
        1,
    ];
    let length = random.pick(&lengths);
    let mut text = random.bytes(length);
    for byte in &mut text {
        *byte = (*byte).max(1);
    }
    if length > 0 && random.percent(15) {
        let place = random.pick(&[0, length - 1, any.min(length - 1)]);
        text[place] = 0;
    }
    text
}

/// Bytes to be lent for a cell of a width, with random contents: most often enough of them.
pub fn any_buffer(random: &mut Random, width: usize) -> Vec<u8> {
    let width = width.min(MOST_LENGTH);
    let length = match random.below(100) {
        0..=49 => width,
        50..=84 => width + random.within(1..=20),
        85..=89 => 0,
        90..=94 => width.saturating_sub(1),
        _ => random.below(width + 1),
    };
    random.bytes(length)
}
