//! The C calls under test, and the form in which the model's answers are compared with theirs.

mod blob;
mod cells;
mod checks;
mod cursor;
pub mod expected;
mod lent;
mod packed;

pub use blob::blob;
pub use cells::{cell, field, header, record, write, Written};
pub use checks::*;
pub use cursor::{start, step};
pub use packed::*;
