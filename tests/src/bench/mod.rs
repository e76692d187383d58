//! The costs of the calls, beside the model's: checks and lookups on tables of three sizes, blobs
//! with MB files of two sizes, the other calls on a table of eight fields.

mod data;
mod image;
mod measured;
mod memos;
mod round;
mod task;
mod time;

pub use data::{Data, Which};
pub use measured::{measured_ours, measured_rust, Measured};
pub use task::Task;
pub use time::print_times;

/// Whose code is measured.
#[derive(Clone, Copy, Debug, PartialEq, Eq)]
pub enum Who {
    /// The library's.
    Ours,
    /// The model's.
    Rust,
}

impl Who {
    /// The side of a name on the command line.
    pub fn named(name: &str) -> Option<Who> {
        match name {
            "ours" => Some(Who::Ours),
            "rust" => Some(Who::Rust),
            _ => None,
        }
    }
}
