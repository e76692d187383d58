//! `parts.db` and its index: what the shop has on its shelves.

use super::store::*;
use crate::generate::{tree, IndexShape, TableImage, UsedBlock};

const CODE_WIDTH: u8 = 90;
const DESCRIPTION_WIDTH: u8 = 60;
/// Records put into each block; six would fit.
const RECORDS_A_BLOCK: usize = 5;
/// The order in which the chain goes through the file.
const CHAIN: [u16; 12] = [3, 1, 8, 2, 12, 5, 4, 13, 9, 7, 10, 6];
const FREE: [u16; 1] = [11];

/// A family of parts: the code it begins with, its description, the price of the smallest size in
/// cents, and the sizes.
type Family = (&'static str, &'static str, u32, [u32; 5]);

const FAMILIES: [Family; 12] = [
    (
        "ANCHOR/GRAPNEL",
        "Folding grapnel anchor, kg",
        1890,
        [2, 4, 6, 8, 12],
    ),
    (
        "BLOCK/BRONZE/SINGLE",
        "Bronze single block, line mm",
        2450,
        [6, 8, 10, 12, 14],
    ),
    (
        "BRUSH/BRISTLE",
        "Varnish brush, width mm",
        340,
        [20, 30, 40, 50, 70],
    ),
    (
        "CHAIN/GALVANISED",
        "Galvanised chain per metre, mm",
        410,
        [6, 7, 8, 10, 12],
    ),
    (
        "CLEAT/HORN/BRASS",
        "Brass horn cleat, length cm",
        720,
        [10, 12, 15, 20, 25],
    ),
    (
        "FENDER/ROPE",
        "Hand-plaited rope fender, cm",
        2900,
        [30, 40, 50, 60, 80],
    ),
    (
        "LAMP/COPPER",
        "Copper anchor lamp, height cm",
        5600,
        [18, 22, 26, 30, 38],
    ),
    (
        "MODEL/DEADEYE/BOXWOOD",
        "Boxwood deadeyes, ten, mm",
        290,
        [3, 4, 5, 7, 9],
    ),
    (
        "MODEL/PLANK/WALNUT",
        "Walnut planking strip, mm",
        85,
        [2, 4, 5, 6, 8],
    ),
    (
        "ROPE/MANILA",
        "Manila rope per metre, mm",
        110,
        [6, 8, 10, 14, 20],
    ),
    (
        "SHACKLE/STEEL/BOW",
        "Stainless bow shackle, mm",
        380,
        [4, 5, 6, 8, 10],
    ),
    (
        "TWINE/WAXED",
        "Waxed whipping twine, spool no.",
        450,
        [1, 2, 3, 4, 5],
    ),
];

/// The parts.
pub fn table() -> TableImage {
    table_of(records())
}

/// The parts as they were before the smallest deadeyes came in.
pub fn table_before_delivery() -> TableImage {
    let delivered = text(CODE_WIDTH, "MODEL/DEADEYE/BOXWOOD/03");
    let mut image = table();
    let size = image.shape.record_size();
    for block in &mut image.chain {
        if block.records.starts_with(&delivered) {
            block.records.drain(..size);
        }
    }
    image
}

/// The index of the parts, in blocks of 1 KB.
pub fn index(parts: &TableImage) -> Vec<u8> {
    let shape = IndexShape {
        version: 0x09,
        units: 1,
        header_size: 2048,
        key_length: parts.shape.key_length(),
    };
    tree(shape, &parts.first_keys()).map_or_else(Vec::new, |image| image.bytes())
}

fn table_of(records: Vec<Vec<u8>>) -> TableImage {
    let fields = [
        ("Code", text_field(CODE_WIDTH)),
        ("Description", text_field(DESCRIPTION_WIDTH)),
        ("Price", CURRENCY),
        ("Stock", SHORT),
        ("Last delivery", DATE),
        ("On order", LOGICAL),
    ];
    let blocks = CHAIN.iter().zip(records.chunks(RECORDS_A_BLOCK));
    let chain = blocks.map(|(&number, records)| UsedBlock {
        number,
        records: records.concat(),
    });
    TableImage {
        shape: shape(0x09, 1, &fields),
        chain: chain.collect(),
        free: FREE.to_vec(),
        junk: None,
    }
}

fn records() -> Vec<Vec<u8>> {
    let mut records = Vec::new();
    for (family, (code, description, cents, sizes)) in FAMILIES.iter().enumerate() {
        for (step, size) in sizes.iter().enumerate() {
            let price = f64::from(cents + cents * step as u32 * 2 / 5) / 100.0;
            let code = text(CODE_WIDTH, &format!("{code}/{size:02}"));
            let description = text(DESCRIPTION_WIDTH, &format!("{description} {size}"));
            let rest = shelf(family, step);
            records.push([code, description, number(price), rest].concat());
        }
    }
    records
}

/// Stock, last delivery and whether more is on order. Some are not known.
fn shelf(family: usize, step: usize) -> Vec<u8> {
    let mixed = family * 7 + step * 3;
    let stock = match mixed % 11 {
        0 => blank(SHORT),
        left => short(left as i16 * 3 - 3),
    };
    let delivered = match mixed % 7 {
        0 => blank(DATE),
        week => date(1996, 1 + mixed % 12, week as u32 * 4),
    };
    let on_order = match mixed % 5 {
        0 => blank(LOGICAL),
        other => logical(other == 1),
    };
    [stock, delivered, on_order].concat()
}
