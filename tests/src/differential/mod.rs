//! The library and the model on the same files: every answer and every lent byte compared.

mod arguments;
mod blobs;
mod case;
mod cells;
mod checks;
mod compare;
mod cursors;
mod difference;
mod lister;
mod question;
mod run;
mod save;
mod seek;
mod sweep;
mod tally;
mod values;
mod writes;

pub use case::{listed_table, make, Case};
pub use run::{run, Options};
pub use values::any_value;
