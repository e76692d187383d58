//! A second implementation of document 01 and of requests 01, 02 and 10 of document 02, written from the
//! papers and from how their open places are read.

mod blob;
mod blocks;
mod cells;
mod chain;
mod counts;
mod cursor;
mod fields;
mod header;
mod index;
mod keys;
mod listing;
mod pair;
mod refusal;
mod scan;
mod table;
mod walk;
mod write;

pub use blob::{blob, Blob};
pub use blocks::{Block, Blocks};
pub use cells::{cell, Cell};
pub use cursor::{start, step, Cursor, Stepped};
pub use fields::{Field, Kind, PlacedField};
pub use header::Header;
pub use index::{Entry, Index};
pub use listing::listing;
pub use pair::pair_check;
pub use refusal::Refusal;
pub use scan::{scan, Place};
pub use table::{table_check, Part, Table};
pub use walk::{walk, Walked};
pub use write::{write, Value};
