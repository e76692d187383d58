//! The smaller samples.

use super::store::*;
use crate::generate::{Shape, TableImage, UsedBlock};
use crate::layout::{put_word, UNIT};

fn image(shape: Shape, blocks: &[(u16, Vec<Vec<u8>>)]) -> TableImage {
    let chain = blocks.iter().map(|(number, records)| UsedBlock {
        number: *number,
        records: records.concat(),
    });
    TableImage {
        shape,
        chain: chain.collect(),
        free: Vec::new(),
        junk: None,
    }
}

/// Document 01's table of two records.
pub fn example() -> TableImage {
    let shape = shape(0x09, 1, &[("Part", text_field(3)), ("Stock", SHORT)]);
    let cog = [text(3, "cog"), short(12)].concat();
    let nut = [text(3, "nut"), blank(SHORT)].concat();
    image(shape, &[(1, vec![cog, nut])])
}

/// Tides of three days, in the order in which they were written down. Version 04, no key.
pub fn tides() -> TableImage {
    const HEIGHTS: [(u32, i16, f64, &str); 6] = [
        (12, 5 * 60 + 41, 4.35, "north quay"),
        (12, 18 * 60 + 3, 4.1, "north quay"),
        (13, 6 * 60 + 22, 4.5, "north quay"),
        (13, 6 * 60 + 30, 4.45, "slipway"),
        (14, 7 * 60 + 2, 4.7, "north quay"),
        (14, 19 * 60 + 25, -0.15, "slipway"),
    ];
    let fields = [
        ("Day", DATE),
        ("Minute", SHORT),
        ("Metres", NUMBER),
        ("Where", text_field(12)),
    ];
    let record = |&(day, minute, metres, place): &(u32, i16, f64, &str)| {
        [
            date(1997, 3, day),
            short(minute),
            number(metres),
            text(12, place),
        ]
        .concat()
    };
    let records: Vec<Vec<u8>> = HEIGHTS.iter().map(record).collect();
    let (early, late) = records.split_at(4);
    image(
        shape(0x04, 0, &fields),
        &[(2, early.to_vec()), (1, late.to_vec())],
    )
}

/// Three blocks of which the last leads back to the first.
pub fn circle() -> Vec<u8> {
    let shape = shape(0x07, 1, &[("Knot", text_field(16))]);
    let header_size = shape.header_size;
    let knots = [
        (1, vec![text(16, "bowline"), text(16, "clove hitch")]),
        (2, vec![text(16, "reef knot")]),
        (3, vec![text(16, "sheet bend")]),
    ];
    let mut bytes = image(shape, &knots).bytes();
    put_word(&mut bytes, header_size + 2 * UNIT, 1);
    bytes
}

/// Lengths of rope, one of which is no number.
pub fn coils() -> TableImage {
    let shape = shape(0x0B, 1, &[("Coil", SHORT), ("Metres", NUMBER)]);
    let records = [120.0, f64::NAN, 87.5]
        .iter()
        .zip(1..)
        .map(|(&metres, coil)| [short(coil), number(metres)].concat());
    image(shape, &[(1, records.collect())])
}
