//! The tables that are measured, their indexes of full blocks, and their MB files.

use super::image::{items, parts, HEADER_SIZE};
use super::memos::memos;
use crate::generate::{tree, IndexShape, TableImage};
use crate::random::Random;
use std::io;
use std::path::Path;

const SEED: u64 = 64;
/// Free units before each of 64 blocks of the large MB file: 1 MB.
const MUCH_FREE: u16 = 256;

/// Which table is measured.
#[derive(Clone, Copy, Debug, PartialEq, Eq)]
pub enum Which {
    /// A stock list of 64 KB.
    Small,
    /// A stock list of 5 MB and 100,000 records.
    Middle,
    /// A stock list of 64 MB.
    Large,
    /// 1,184 records of eight fields, 66 KB.
    Fields,
    /// 128 memos, with an MB file of 264 KB.
    Memos,
    /// The same memos, with an MB file of 64 MB.
    MemosLarge,
}

impl Which {
    /// Every table.
    pub const ALL: [Which; 6] = [
        Which::Small,
        Which::Middle,
        Which::Large,
        Which::Fields,
        Which::Memos,
        Which::MemosLarge,
    ];

    /// The table's name.
    pub fn name(self) -> &'static str {
        match self {
            Which::Small => "64 KB",
            Which::Middle => "5 MB",
            Which::Large => "64 MB",
            Which::Fields => "eight fields",
            Which::Memos => "memos, MB file of 264 KB",
            Which::MemosLarge => "memos, MB file of 64 MB",
        }
    }

    /// The table's name on the command line and in file names.
    pub fn short_name(self) -> &'static str {
        match self {
            Which::Small => "small",
            Which::Middle => "middle",
            Which::Large => "large",
            Which::Fields => "fields",
            Which::Memos => "memos",
            Which::MemosLarge => "memos-large",
        }
    }

    /// The table of a name on the command line.
    pub fn named(name: &str) -> Option<Which> {
        Which::ALL
            .into_iter()
            .find(|which| which.short_name() == name)
    }

    /// The table, and the bytes of its MB file, none for a table without blobs.
    fn files(self) -> (TableImage, Vec<u8>) {
        let mut random = Random::new(SEED);
        let image = match self {
            Which::Small => parts(2, 31 * 41, &mut random),
            Which::Middle => parts(2, 100_000, &mut random),
            Which::Large => parts(4, 16_383 * 83, &mut random),
            Which::Fields => items(&mut random),
            Which::Memos => return memos(0, &mut random),
            Which::MemosLarge => return memos(MUCH_FREE, &mut random),
        };
        (image, Vec::new())
    }
}

/// A table, its index and its MB file.
pub struct Data {
    /// The table's bytes.
    pub table: Vec<u8>,
    /// The index's bytes, none for a table without a key.
    pub index: Vec<u8>,
    /// The MB file's bytes, none for a table without blobs.
    pub mb: Vec<u8>,
}

impl Data {
    /// Makes the data of a table.
    pub fn make(which: Which) -> Data {
        let (image, mb) = which.files();
        Data {
            table: image.bytes(),
            index: index(&image),
            mb,
        }
    }

    /// Reads the data of a table that `write` has left in a directory.
    pub fn read(directory: &Path, which: Which) -> io::Result<Data> {
        let path = directory.join(which.short_name());
        Ok(Data {
            table: std::fs::read(path.with_extension("db"))?,
            index: std::fs::read(path.with_extension("px"))?,
            mb: std::fs::read(path.with_extension("mb"))?,
        })
    }

    /// Writes the data of a table into a directory.
    pub fn write(&self, directory: &Path, which: Which) -> io::Result<()> {
        let path = directory.join(which.short_name());
        std::fs::create_dir_all(directory)?;
        std::fs::write(path.with_extension("db"), &self.table)?;
        std::fs::write(path.with_extension("px"), &self.index)?;
        std::fs::write(path.with_extension("mb"), &self.mb)
    }
}

fn index(image: &TableImage) -> Vec<u8> {
    if image.shape.key_fields == 0 {
        return Vec::new();
    }
    let shape = IndexShape {
        version: image.shape.version,
        units: image.shape.units,
        header_size: HEADER_SIZE,
        key_length: image.shape.key_length(),
    };
    let tree = tree(shape, &image.first_keys());
    tree.map_or_else(Vec::new, |tree| tree.bytes())
}
