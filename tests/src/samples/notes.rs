//! `notes.db` and its MB file: the suppliers, what the shop has noted of them, and their marks.

use super::memos::Memos;
use super::store::*;
use crate::codes;
use crate::generate::{StoredField, TableImage, UsedBlock};
use crate::mb::TAIL;

const CODE_WIDTH: u8 = 6;
const NAME_WIDTH: u8 = 28;
const LEADER: usize = 24;
const NOTE: StoredField = StoredField {
    code: codes::MEMO,
    width: (LEADER + TAIL) as u8,
};
const MARK: StoredField = StoredField {
    code: codes::FIRST_BLOB,
    width: TAIL as u8,
};
/// Records in the first block of the chain.
const IN_FIRST: usize = 5;

/// A supplier: code, name, days until a delivery, note. The days may be unknown.
type Supplier = (&'static str, &'static str, i16, &'static str);

const UNKNOWN: i16 = 0;
const SUPPLIERS: [Supplier; 9] = [
    (
        "ANCHOR",
        "Tarrant & Sons, Falmouth",
        12,
        "Grapnels and chain. Pays the carriage from 50 kg on,\n\
         below that the van calls every second Tuesday.\n",
    ),
    ("BRASS", "Penrose Foundry", 21, "Pays carriage. Ask Joan."),
    (
        "CANVAS",
        "Widow Hosking",
        7,
        "Sews sails, covers and flags. Owes us for two fenders\n\
         since Easter, says she will come in and pay in May.\n",
    ),
    (
        "HEMP",
        "Bridport Rope Walk",
        UNKNOWN,
        "Closed in August. Order tarred by July.",
    ),
    (
        "LAMPS",
        "Davey, Copper and Tin",
        30,
        "Said on the telephone: \"no more 18 cm lamps, ever\".\n\
         Has glasses, wicks, burners, \"seconds\" at half price.\n",
    ),
    ("OILS", "Cornwall Oil and Varnish", 5, ""),
    ("PAINT", "Rowe Brothers", 9, "Tins only."),
    (
        "TIMBER",
        "Saltash Saw Mill",
        14,
        "Walnut is cut to order, boxwood is not.\n",
    ),
    ("WAX", "Trevose Chandlery", UNKNOWN, ""),
];
/// Whose note was deleted: its cell is blank, its bytes are still in the MB file.
const WITH_DELETED: &str = "CANVAS";
/// Whose note is the price list, too long for a suballocated block.
const WITH_LIST: &str = "OILS";
/// Whose mark the shop has.
const WITH_MARK: &str = "ANCHOR";

/// An anchor, sixteen rows of sixteen dots.
const ANCHOR: [u16; 16] = [
    0x0180, 0x0240, 0x0240, 0x0180, 0x0FF0, 0x0180, 0x0180, 0x0180, 0x0180, 0x2184, 0x7186, 0x399C,
    0x1DB8, 0x0FF0, 0x07E0, 0x0180,
];

/// The suppliers, and the MB file with those notes and marks that are longer than their leaders.
pub fn files() -> (TableImage, Vec<u8>) {
    let mut memos = Memos::new();
    let records = SUPPLIERS
        .iter()
        .map(|supplier| record(supplier, &mut memos));
    let records: Vec<Vec<u8>> = records.collect();
    let (first, second) = records.split_at(IN_FIRST);
    let block = |number, records: &[Vec<u8>]| UsedBlock {
        number,
        records: records.concat(),
    };
    let fields = [
        ("Code", text_field(CODE_WIDTH)),
        ("Name", text_field(NAME_WIDTH)),
        ("Days", SHORT),
        ("Note", NOTE),
        ("Mark", MARK),
    ];
    let table = TableImage {
        shape: shape(0x09, 1, &fields),
        chain: vec![block(2, first), block(1, second)],
        free: Vec::new(),
        junk: None,
    };
    (table, memos.into_bytes())
}

fn record(&(code, name, days, note): &Supplier, memos: &mut Memos) -> Vec<u8> {
    let days = match days {
        UNKNOWN => blank(SHORT),
        known => short(known),
    };
    let note = match code {
        WITH_DELETED => {
            memos.add_deleted(note.as_bytes());
            blank(NOTE)
        }
        WITH_LIST => memos.cell_of_own(LEADER, &price_list()),
        _ => memos.cell(LEADER, note.as_bytes()),
    };
    let mark = match code {
        WITH_MARK => memos.cell(0, &ANCHOR.map(u16::to_be_bytes).concat()),
        _ => blank(MARK),
    };
    [
        text(CODE_WIDTH, code),
        text(NAME_WIDTH, name),
        days,
        note,
        mark,
    ]
    .concat()
}

/// The list of the oil merchant, of a few KB.
fn price_list() -> Vec<u8> {
    const GOODS: [(&str, u32); 9] = [
        ("Beeswax and resin", 430),
        ("Boiled linseed oil", 310),
        ("Raw linseed oil", 290),
        ("Pure tung oil", 720),
        ("Stockholm tar, medium", 480),
        ("Gum turpentine", 350),
        ("Yacht varnish, gloss", 890),
        ("Deck oil, \"teak\"", 610),
        ("Bilge paint, grey", 540),
    ];
    const TINS: [(&str, u32); 6] = [
        ("quarter litre", 1),
        ("half litre", 2),
        ("litre", 4),
        ("two and a half litres", 9),
        ("five litres", 17),
        ("barrel of 25 litres", 80),
    ];
    let mut list = String::from("Prices from 1 March, carriage paid from ten tins on.\n\n");
    for (oil, price) in GOODS {
        for (tin, quarters) in TINS {
            let cents = price * quarters;
            list += &format!("{oil}, {tin}: {}.{:02}\n", cents / 100, cents % 100);
        }
    }
    list += "\nEmpty barrels are taken back for 4.00 each, \"clean or not\".\n";
    list.into_bytes()
}
