//! Small files for people to try: the stock of a ship chandler and model shop, and files that are
//! wrong in one way each.

mod memos;
mod notes;
mod parts;
mod shop;
mod store;

use std::io;
use std::path::Path;

/// A sample: its file name and its bytes.
pub type Sample = (&'static str, Vec<u8>);

/// Every sample.
pub fn samples() -> Vec<Sample> {
    let parts = parts::table();
    let mut torn = parts.bytes();
    torn.truncate(9000);
    let (notes, memos) = notes::files();
    vec![
        ("parts.db", parts.bytes()),
        ("parts.px", parts::index(&parts)),
        ("stale.px", parts::index(&parts::table_before_delivery())),
        ("torn.db", torn),
        ("example.db", shop::example().bytes()),
        ("tides.db", shop::tides().bytes()),
        ("loop.db", shop::circle()),
        ("number.db", shop::coils().bytes()),
        ("notes.db", notes.bytes()),
        ("notes.mb", memos),
    ]
}

/// Writes every sample into a directory.
pub fn write_samples(directory: &Path) -> io::Result<()> {
    std::fs::create_dir_all(directory)?;
    for (name, bytes) in samples() {
        std::fs::write(directory.join(name), bytes)?;
    }
    Ok(())
}
