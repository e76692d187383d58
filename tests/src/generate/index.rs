//! Indexes: trees of every height over a table's blocks, and the bytes of the file.

use crate::layout::*;
use crate::random::Random;

/// The sizes of an index.
#[derive(Clone, Copy)]
pub struct IndexShape {
    /// The version byte.
    pub version: u8,
    /// The block size in units.
    pub units: u8,
    /// Bytes in the header.
    pub header_size: usize,
    /// Bytes in a key.
    pub key_length: usize,
}

impl IndexShape {
    /// How many entries fit in a block.
    pub fn capacity(&self) -> usize {
        (usize::from(self.units) * UNIT - BLOCK_HEAD) / (self.key_length + ENTRY_TAIL)
    }
}

/// A key, and the block that it leads to.
pub type Leaf = (Vec<u8>, u16);

/// An index before it becomes bytes.
#[derive(Clone)]
pub struct IndexImage {
    /// Its sizes.
    pub shape: IndexShape,
    /// The top block, or 0.
    pub root: u16,
    /// The levels.
    pub levels: u8,
    /// The entries of each block, by number from 1.
    pub blocks: Vec<Vec<Leaf>>,
    /// What fills the places that no rule judges: zeros, or random bytes from this seed.
    pub junk: Option<u64>,
}

/// A random index over blocks in key order, each given with its first key; nothing where the keys
/// are too long for any.
pub fn index_for(random: &mut Random, key_length: usize, leaves: &[Leaf]) -> Option<IndexImage> {
    let shape = random_shape(random, key_length, leaves.len() > 1)?;
    if leaves.len() == 1 && random.percent(25) {
        return Some(looping_index(random, shape, &leaves[0]));
    }
    let wanted = random.pick(&[1, 1, 1, 2, 2, 3, 4, 5, 6, 7, 8]);
    let nodes = grow(shape.capacity(), leaves, wanted, |most| {
        random.within(1..=most)
    })?;
    let spare = random.pick(&[0, 0, 0, 1, 2]);
    let mut numbers: Vec<u16> = (1..=(nodes.len() + spare) as u16).collect();
    if random.percent(75) {
        random.shuffle(&mut numbers);
    }
    let junk = random.percent(50).then(|| random.bits());
    Some(number_nodes(shape, &nodes, &numbers, junk))
}

/// An index of full blocks over some leaves, as low as it can be.
pub fn tree(shape: IndexShape, leaves: &[Leaf]) -> Option<IndexImage> {
    let nodes = grow(shape.capacity(), leaves, 1, |most| most)?;
    let numbers: Vec<u16> = (1..=nodes.len() as u16).collect();
    Some(number_nodes(shape, &nodes, &numbers, None))
}

/// An index over one data block whose blocks name each other in a circle, so that each serves at
/// several levels. The pair check accepts it.
fn looping_index(random: &mut Random, shape: IndexShape, leaf: &Leaf) -> IndexImage {
    let (key, data) = leaf;
    let levels = random.within(1..=MOST_LEVELS.into());
    let others = (1..).filter(|number| number != data);
    let circle: Vec<u16> = std::iter::once(*data)
        .chain(others.take(random.below(3)))
        .collect();
    let blocks = circle.iter().copied().max().unwrap_or(*data);
    let mut image = IndexImage {
        shape,
        root: circle[levels % circle.len()],
        levels: levels as u8,
        blocks: vec![Vec::new(); blocks.into()],
        junk: Some(random.bits()),
    };
    for (place, &number) in circle.iter().enumerate() {
        let named = circle[(place + circle.len() - 1) % circle.len()];
        image.blocks[usize::from(number) - 1] = vec![(key.clone(), named)];
    }
    image
}

fn random_shape(random: &mut Random, key_length: usize, branching: bool) -> Option<IndexShape> {
    let entry = key_length + ENTRY_TAIL;
    let needed = if branching { 2 * entry } else { entry };
    let fits = |units: &u8| usize::from(*units) * UNIT - BLOCK_HEAD >= needed;
    let units: Vec<u8> = (1..=MOST_UNITS).filter(fits).collect();
    if units.is_empty() {
        return None;
    }
    let header_sizes = [
        LEAST_INDEX,
        LEAST_INDEX,
        random.within(89..=400),
        2048,
        random.within(88..=9000),
    ];
    Some(IndexShape {
        version: random.within(FIRST_VERSION.into()..=LAST_VERSION.into()) as u8,
        units: random.pick(&units),
        header_size: random.pick(&header_sizes),
        key_length,
    })
}

/// A block of a tree without a number yet. Its entries name data blocks at level 1, and above it
/// the places of other nodes.
struct Node {
    level: u8,
    entries: Vec<(Vec<u8>, usize)>,
}

/// The nodes of a tree of at least the wanted height, the root last; nothing where eight levels do
/// not suffice. `group` says how many entries go into a block, given how many can.
fn grow(
    capacity: usize,
    leaves: &[Leaf],
    wanted: u8,
    mut group: impl FnMut(usize) -> usize,
) -> Option<Vec<Node>> {
    let mut nodes = Vec::new();
    let leaf = |(key, block): &Leaf| (key.clone(), usize::from(*block));
    let mut below: Vec<(Vec<u8>, usize)> = leaves.iter().map(leaf).collect();
    if below.is_empty() {
        return Some(nodes);
    }
    for level in 1..=MOST_LEVELS {
        let top = level >= wanted && below.len() <= capacity;
        let tight = usize::from(level) + height(below.len(), capacity) > MOST_LEVELS.into();
        let mut above = Vec::new();
        while !below.is_empty() {
            let most = capacity.min(below.len());
            let taken = if top || tight { most } else { group(most) };
            let entries: Vec<_> = below.drain(..taken).collect();
            above.push((entries[0].0.clone(), nodes.len()));
            nodes.push(Node { level, entries });
        }
        if level >= wanted && above.len() == 1 {
            return Some(nodes);
        }
        below = above;
    }
    None
}

/// The fewest levels over so many blocks.
fn height(mut blocks: usize, capacity: usize) -> usize {
    for levels in 1..=MOST_LEVELS.into() {
        blocks = blocks.div_ceil(capacity);
        if blocks <= 1 {
            return levels;
        }
    }
    usize::from(MOST_LEVELS) + 1
}

/// The image of a tree whose nodes have the first of the given numbers; the other numbers are
/// blocks outside the tree.
fn number_nodes(
    shape: IndexShape,
    nodes: &[Node],
    numbers: &[u16],
    junk: Option<u64>,
) -> IndexImage {
    let mut blocks = vec![Vec::new(); numbers.len()];
    for (node, &number) in nodes.iter().zip(numbers) {
        let named = |place: usize| match node.level {
            1 => place as u16,
            _ => numbers[place],
        };
        let entries = node.entries.iter();
        blocks[usize::from(number) - 1] = entries
            .map(|(key, place)| (key.clone(), named(*place)))
            .collect();
    }
    IndexImage {
        shape,
        root: nodes.len().checked_sub(1).map_or(0, |last| numbers[last]),
        levels: nodes.last().map_or(0, |node| node.level),
        blocks,
        junk,
    }
}

impl IndexImage {
    /// The bytes of the file.
    pub fn bytes(&self) -> Vec<u8> {
        let shape = &self.shape;
        let block_size = usize::from(shape.units) * UNIT;
        let mut bytes = vec![0; shape.header_size + self.blocks.len() * block_size];
        let mut random = Random::new(self.junk.unwrap_or(0));
        if self.junk.is_some() {
            random.fill(&mut bytes);
        }
        put_word(
            &mut bytes,
            RECORD_SIZE,
            (shape.key_length + ENTRY_TAIL) as u16,
        );
        put_word(&mut bytes, HEADER_SIZE, shape.header_size as u16);
        bytes[FILE_TYPE] = PRIMARY_INDEX;
        bytes[BLOCK_UNITS] = shape.units;
        put_word(&mut bytes, BLOCKS, self.blocks.len() as u16);
        put_word(&mut bytes, ROOT, self.root);
        bytes[LEVELS] = self.levels;
        bytes[VERSION] = shape.version;
        for (block, entries) in bytes[shape.header_size..]
            .chunks_exact_mut(block_size)
            .zip(&self.blocks)
        {
            if !entries.is_empty() {
                self.put_entries(block, entries);
            }
        }
        bytes
    }

    fn put_entries(&self, block: &mut [u8], entries: &[Leaf]) {
        let key_length = self.shape.key_length;
        let entry_size = key_length + ENTRY_TAIL;
        let last = (entries.len() - 1) * entry_size;
        put_word(block, LAST_RECORD, last as u16);
        let stored = block[BLOCK_HEAD..].chunks_exact_mut(entry_size);
        for (stored, (key, named)) in stored.zip(entries) {
            stored[..key_length].copy_from_slice(key);
            let named = (named ^ COMPLEMENT).to_be_bytes();
            stored[key_length..key_length + 2].copy_from_slice(&named);
        }
    }
}
