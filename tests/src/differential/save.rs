//! Inputs that showed a difference, saved under names that say where they come from.

use super::case::Case;
use super::difference::Difference;
use super::tally::Call;
use std::io;
use std::path::{Path, PathBuf};

/// Where a difference was seen.
#[derive(Clone, Copy)]
pub struct Origin {
    /// The run's seed.
    pub seed: u64,
    /// The number of the case or of the listing.
    pub number: u64,
}

/// Saves the files of a difference and answers their paths.
pub fn save(
    directory: &Path,
    origin: Origin,
    difference: &Difference,
    case: &Case,
) -> io::Result<Vec<PathBuf>> {
    let name = format!(
        "{}-seed-{}-case-{}",
        difference.call.name(),
        origin.seed,
        origin.number
    );
    std::fs::create_dir_all(directory)?;
    let with_index = difference.call != Call::Listing;
    let index = with_index.then_some(("px", &case.index));
    let lent = difference.lent.iter().map(|(name, bytes)| (*name, bytes));
    let files = [("db", &case.table)].into_iter().chain(index).chain(lent);
    let mut paths = Vec::new();
    for (extension, bytes) in files {
        let path = directory.join(&name).with_extension(extension);
        std::fs::write(&path, bytes)?;
        paths.push(path);
    }
    Ok(paths)
}
