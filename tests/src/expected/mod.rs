//! What the test programs in Rattle are to print for their inputs, by the model.

mod blob;
mod cell;
mod copy;
mod header;
mod lines;
mod neighbours;
mod pair;
mod records;
mod show;
mod table;
mod value;

use crate::model::listing;
use lines::run;
use std::io;
use std::path::{Path, PathBuf};

/// A program's crate, and what it prints for its input.
type Made = (&'static str, fn(&[u8]) -> Vec<u8>);

const PROGRAMS: [Made; 7] = [
    ("blob_test", |input| run(blob::BlobTest, input)),
    ("cell_test", |input| run(cell::CellTest, input)),
    ("header_test", |input| run(header::HeaderTest, input)),
    ("lister", listing),
    ("pair_test", |input| run(pair::PairTest::new(), input)),
    ("records_test", |input| {
        run(records::RecordsTest::new(), input)
    }),
    ("table_test", |input| run(table::TableTest, input)),
];

/// The file of a program's output, and what it is to hold.
pub struct Output {
    /// The file.
    pub file: PathBuf,
    /// Its bytes.
    pub bytes: Vec<u8>,
}

/// The output of every program, made from the inputs in the directory of the crates.
pub fn outputs(crates: &Path) -> io::Result<Vec<Output>> {
    let output = |(name, make): &Made| {
        let folder = crates.join(name);
        let input = std::fs::read(folder.join("stdin"))?;
        Ok(Output {
            file: folder.join("stdout"),
            bytes: make(&input),
        })
    };
    PROGRAMS.iter().map(output).collect()
}

/// The first line in which a stored output differs from the one made: its number from 1, what is
/// stored and what is made.
pub fn first_difference(stored: &[u8], made: &[u8]) -> Option<(usize, String, String)> {
    let lines = |bytes: &[u8]| -> Vec<String> {
        let lines = bytes.split_inclusive(|&byte| byte == b'\n');
        lines
            .map(|line| String::from_utf8_lossy(line).into_owned())
            .collect()
    };
    let (stored, made) = (lines(stored), lines(made));
    let of = |lines: &[String], at: usize| lines.get(at).cloned().unwrap_or_default();
    (0..stored.len().max(made.len()))
        .find(|&at| stored.get(at) != made.get(at))
        .map(|at| (at + 1, of(&stored, at), of(&made, at)))
}
