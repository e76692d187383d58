//! How much of an index the pair check looks at: at each level no more entries than there are used
//! blocks that hold records, and one. The entries behind those are on a page that nobody may touch.

use brittomaz_tests::calls::paradox_pair_check;
use brittomaz_tests::fence::{Fence, Side};
use brittomaz_tests::generate::{
    IndexImage, IndexShape, Leaf, Shape, StoredField, TableImage, UsedBlock,
};
use brittomaz_tests::layout::{BLOCK_HEAD, ENTRY_TAIL, MOST_LEVELS, UNIT};
use brittomaz_tests::{codes, watch};

const KEY_LENGTH: usize = 2;
const ENTRY: usize = KEY_LENGTH + ENTRY_TAIL;
const FULL: usize = (UNIT - BLOCK_HEAD) / ENTRY;
const FITS: u32 = 0;
const BROKEN_TREE: u32 = 27;

/// The entry of a data block, and of an index block of the same number.
fn entry(number: u16) -> Leaf {
    (number.to_be_bytes().to_vec(), number)
}

/// A table of so many blocks with a record in each.
fn table(used: u16) -> Vec<u8> {
    let code = codes::TEXT;
    let width = KEY_LENGTH as u8;
    let block = |number| UsedBlock {
        number,
        records: entry(number).0,
    };
    let image = TableImage {
        shape: Shape {
            version: 0x09,
            units: 1,
            fields: vec![StoredField { code, width }],
            names: vec![b"only".to_vec()],
            key_fields: 1,
            header_size: 2048,
        },
        chain: (1..=used).map(block).collect(),
        free: Vec::new(),
        junk: None,
    };
    image.bytes()
}

/// The pair check of a table and an index whose root is its last block; of that block only so many
/// entries may be touched.
fn check(table: &[u8], blocks: Vec<Vec<Leaf>>, levels: u8, entries: usize) -> u32 {
    let image = IndexImage {
        shape: IndexShape {
            version: 0x09,
            units: 1,
            header_size: 88,
            key_length: KEY_LENGTH,
        },
        root: blocks.len() as u16,
        levels,
        blocks,
        junk: None,
    };
    let bytes = image.bytes();
    let end = bytes.len() - UNIT + BLOCK_HEAD + entries * ENTRY;
    let mut index = Fence::new(end);
    index.place(&bytes[..end], Side::Back);
    let mut marks = vec![0; table.len() / UNIT];
    watch::start();
    watch::at_case(levels.into());
    // SAFETY: behind the bytes that are there stands a page whose touch ends the program: that is
    // what is tested.
    unsafe {
        paradox_pair_check(
            table.as_ptr(),
            table.len(),
            index.lent().as_ptr(),
            bytes.len(),
            marks.as_mut_ptr(),
            marks.len(),
        )
    }
}

/// Below a root of so many entries each block has one, which names the block again, and at level 1
/// the data block of the same number. An entry for each data block fits.
fn below_root(used: u16, entries: usize) -> Vec<Vec<Leaf>> {
    let named = (1..=used).chain(std::iter::repeat(used));
    let root = named.take(entries).map(entry).collect();
    let others = (1..=used).map(|number| vec![entry(number)]);
    others.chain(std::iter::once(root)).collect()
}

/// With too many entries in the root one more is looked at, at every level, and no other.
#[test]
fn a_root_with_too_many_entries() {
    for used in [1, 2, 5, 20] {
        let table = table(used);
        let right = usize::from(used);
        let answer =
            |entries, levels, touched| check(&table, below_root(used, entries), levels, touched);
        for levels in 1..=MOST_LEVELS {
            assert_eq!(answer(right, levels, right), FITS);
            assert_eq!(answer(right + 1, levels, right + 1), BROKEN_TREE);
            assert_eq!(answer(FULL, levels, right + 1), BROKEN_TREE);
        }
    }
}

/// A full block whose entries all name it: a check that read all of them would not end.
#[test]
fn a_full_block_that_names_itself() {
    for levels in 1..=MOST_LEVELS {
        let blocks = vec![vec![entry(1); FULL]];
        assert_eq!(check(&table(1), blocks, levels, 2), BROKEN_TREE);
    }
}
