//! The index file, rules 21 to 26 (document 01, "Index file").

use super::{header, Blocks, Refusal};
use crate::layout::*;

/// An index that keeps rules 21 to 26.
pub struct Index<'a> {
    /// The top block, 0 where the tree is empty.
    pub root: u16,
    /// How many index blocks lead to a data block.
    pub levels: u8,
    /// Its blocks.
    pub blocks: Blocks<'a>,
    key_length: usize,
}

/// One entry of an index block: the block it names and that block's first key.
pub struct Entry<'a> {
    /// The first key of the block.
    pub key: &'a [u8],
    /// The number of the block.
    pub block: u16,
}

impl<'a> Index<'a> {
    /// Reads an index for keys of a length, or answers the first of rules 21 to 26 that is broken.
    pub fn read(bytes: &'a [u8], key_length: usize) -> Result<Index<'a>, Refusal> {
        if bytes.len() < LEAST_INDEX {
            return Err(Refusal::IndexShort);
        }
        if bytes[FILE_TYPE] != PRIMARY_INDEX {
            return Err(Refusal::IndexType);
        }
        if !(FIRST_VERSION..=LAST_VERSION).contains(&bytes[VERSION]) {
            return Err(Refusal::IndexVersion);
        }
        let block_size = limits(bytes, key_length).ok_or(Refusal::IndexLimit)?;
        let header_size = usize::from(word(bytes, HEADER_SIZE));
        if bytes.len() != header_size + usize::from(word(bytes, BLOCKS)) * block_size {
            return Err(Refusal::IndexLength);
        }
        Ok(Index {
            root: word(bytes, ROOT),
            levels: bytes[LEVELS],
            blocks: Blocks::new(&bytes[header_size..], block_size, key_length + ENTRY_TAIL),
            key_length,
        })
    }

    /// Takes a stored entry apart.
    pub fn entry<'e>(&self, stored: &'e [u8]) -> Entry<'e> {
        let (key, tail) = stored.split_at(self.key_length);
        let block = u16::from_be_bytes([tail[0], tail[1]]) ^ COMPLEMENT;
        Entry { key, block }
    }
}

/// The block size of an index whose header numbers keep their limits.
fn limits(bytes: &[u8], key_length: usize) -> Option<usize> {
    let block_size = header::block_size(bytes)?;
    let record_size = usize::from(word(bytes, RECORD_SIZE));
    let blocks = word(bytes, BLOCKS);
    let good = record_size == key_length + ENTRY_TAIL
        && usize::from(word(bytes, HEADER_SIZE)) >= LEAST_INDEX
        && blocks <= MOST_BLOCKS
        && record_size <= block_size - BLOCK_HEAD
        && root_is_good(word(bytes, ROOT), bytes[LEVELS], blocks);
    good.then_some(block_size)
}

fn root_is_good(root: u16, levels: u8, blocks: u16) -> bool {
    let empty = root == 0 && levels == 0;
    let tree = (1..=blocks).contains(&root) && (1..=MOST_LEVELS).contains(&levels);
    empty || tree
}
