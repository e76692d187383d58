//! Tables and indexes that keep every rule of document 01, over the whole space of its rules, and
//! the MB files of tables with blobs.

mod blobs;
mod cells;
mod image;
mod index;
mod keys;
mod mb;
mod shape;
mod table;

pub use blobs::fill_blobs;
use cells::stored_cell;
pub use cells::stored_double;
pub use image::{TableImage, UsedBlock};
pub use index::{index_for, tree, IndexImage, IndexShape, Leaf};
pub use mb::{Entry, MbFile, Stored};
pub use shape::{any_field, Shape, StoredField};
pub use table::{huge_table, small_table, table};
