//! Stored cells: good values, blanks and meaningless bytes mixed.

use super::StoredField;
use crate::codes::{CURRENCY, DATE, LOGICAL, LONG, NUMBER, SHORT, TEXT};
use crate::random::Random;

const DAYS: [u32; 5] = [36_159, 36_160, 728_783, 3_652_059, 3_652_060];
/// Doubles as they are stored, in the order of their bytes: both sides of each limit.
const STORED_DOUBLES: [u64; 20] = [
    0x0000_0000_0000_0000, // blank
    0x0000_0000_0000_0001, // not a number
    0x0007_FFFF_FFFF_FFFF,
    0x000F_FFFF_FFFF_FFFE,
    0x000F_FFFF_FFFF_FFFF, // minus infinity
    0x0010_0000_0000_0000, // the least number
    0x400F_FFFF_FFFF_FFFF, // -1
    0x7FEF_FFFF_FFFF_FFFF, // the last before the subnormal ones
    0x7FF0_0000_0000_0000,
    0x7FFF_FFFF_FFFF_FFFE,
    0x7FFF_FFFF_FFFF_FFFF, // negative zero
    0x8000_0000_0000_0000, // zero
    0x8000_0000_0000_0001,
    0x800F_FFFF_FFFF_FFFF, // the last of the subnormal ones
    0x8010_0000_0000_0000,
    0xBFF0_0000_0000_0000, // 1
    0xFFEF_FFFF_FFFF_FFFF, // the greatest number
    0xFFF0_0000_0000_0000, // infinity
    0xFFF0_0000_0000_0001, // not a number
    0xFFFF_FFFF_FFFF_FFFF,
];

/// The stored bytes of a random cell.
pub fn stored_cell(random: &mut Random, field: StoredField) -> Vec<u8> {
    let width = usize::from(field.width);
    match random.below(100) {
        0..=11 => vec![0; width],
        12..=21 => random.bytes(width),
        _ => stored_value(random, field.code, width),
    }
}

fn stored_value(random: &mut Random, code: u8, width: usize) -> Vec<u8> {
    match code {
        TEXT => stored_text(random, width),
        DATE => stored_date(random),
        SHORT => random.word().to_be_bytes().to_vec(),
        LONG => (random.bits() as u32).to_be_bytes().to_vec(),
        CURRENCY | NUMBER => any_stored_double(random).to_be_bytes().to_vec(),
        LOGICAL => vec![random.pick(&[0x80, 0x81, 0x81, 0x80, 0x82, 0x01])],
        _ => random.bytes(width),
    }
}

fn stored_text(random: &mut Random, width: usize) -> Vec<u8> {
    let mut stored = vec![0; width];
    let length = random.within(1..=width);
    for byte in &mut stored[..length] {
        *byte = b' ' + random.below(95) as u8;
    }
    if random.percent(8) {
        let torn = random.below(width);
        stored[torn] = 0;
    }
    if random.percent(8) {
        stored[width - 1] = random.pick(&[1, 0x7F, 0xFF, b'\n', b'|']);
    }
    stored
}

fn stored_date(random: &mut Random) -> Vec<u8> {
    let day = if random.percent(50) {
        random.pick(&DAYS)
    } else {
        random.within(36_160..=3_652_059) as u32
    };
    (day ^ 1 << 31).to_be_bytes().to_vec()
}

/// A double at a limit, or a price, at times that of something returned.
fn any_stored_double(random: &mut Random) -> u64 {
    if random.percent(50) {
        return random.pick(&STORED_DOUBLES);
    }
    stored_double(random.below(2_000_000) as f64 / 100.0 - 5_000.0)
}

/// A double as it is stored by request 02 of document 02: one with its sign bit set with all bits complemented,
/// another with its top bit alone.
pub fn stored_double(number: f64) -> u64 {
    let complemented = if number.is_sign_negative() {
        u64::MAX
    } else {
        1 << 63
    };
    number.to_bits() ^ complemented
}
