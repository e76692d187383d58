//! A table before it becomes bytes, and the bytes that it becomes.

use super::Shape;
use crate::layout::*;
use crate::random::Random;

/// One block of the used chain.
#[derive(Clone)]
pub struct UsedBlock {
    /// Its number in the file.
    pub number: u16,
    /// Its records, one after another.
    pub records: Vec<u8>,
}

/// A table before it becomes bytes.
#[derive(Clone)]
pub struct TableImage {
    /// Its shape.
    pub shape: Shape,
    /// The used blocks in chain order.
    pub chain: Vec<UsedBlock>,
    /// The free blocks in chain order.
    pub free: Vec<u16>,
    /// What fills the places that no rule judges: zeros, or random bytes from this seed.
    pub junk: Option<u64>,
}

impl TableImage {
    /// The used blocks that hold records, each with its first key.
    pub fn first_keys(&self) -> Vec<(Vec<u8>, u16)> {
        let filled = self.chain.iter().filter(|block| !block.records.is_empty());
        filled
            .map(|block| {
                (
                    block.records[..self.shape.key_length()].to_vec(),
                    block.number,
                )
            })
            .collect()
    }

    /// The bytes of the file.
    pub fn bytes(&self) -> Vec<u8> {
        let blocks = self.chain.len() + self.free.len();
        let length = self.shape.header_size + blocks * self.shape.block_size();
        let mut bytes = vec![0; length];
        if let Some(seed) = self.junk {
            Random::new(seed).fill(&mut bytes);
        }
        self.put_header(&mut bytes);
        self.put_fields(&mut bytes);
        self.put_chain(&mut bytes);
        self.put_free(&mut bytes);
        bytes
    }

    fn put_header(&self, bytes: &mut [u8]) {
        let shape = &self.shape;
        let number = |block: Option<&UsedBlock>| block.map_or(0, |block| block.number);
        let keyed = shape.key_fields > 0;
        put_word(bytes, RECORD_SIZE, shape.record_size() as u16);
        put_word(bytes, HEADER_SIZE, shape.header_size as u16);
        bytes[FILE_TYPE] = if keyed { KEYED } else { UNKEYED };
        bytes[BLOCK_UNITS] = shape.units;
        let stored: usize = self.chain.iter().map(|block| block.records.len()).sum();
        let records = (stored / shape.record_size()) as i32;
        bytes[RECORDS..RECORDS + 4].copy_from_slice(&records.to_le_bytes());
        put_word(bytes, BLOCKS, (self.chain.len() + self.free.len()) as u16);
        put_word(bytes, FIRST_BLOCK, number(self.chain.first()));
        put_word(bytes, LAST_BLOCK, number(self.chain.last()));
        put_word(bytes, FIELDS, shape.fields.len() as u16);
        put_word(bytes, KEY_FIELDS, shape.key_fields as u16);
        if keyed {
            bytes[SORT] = PLAIN_ORDER;
        }
        bytes[VERSION] = shape.version;
        put_word(bytes, FIRST_FREE, self.free.first().copied().unwrap_or(0));
        let start = encryption(shape.version);
        bytes[start..start + 4].fill(0);
    }

    fn put_fields(&self, bytes: &mut [u8]) {
        let shape = &self.shape;
        let area = field_area(shape.version);
        for (place, field) in shape.fields.iter().enumerate() {
            bytes[area + 2 * place] = field.code;
            bytes[area + 2 * place + 1] = field.width;
        }
        let mut start = names(shape.version, shape.fields.len());
        for name in &shape.names {
            bytes[start..start + name.len()].copy_from_slice(name);
            bytes[start + name.len()] = 0;
            start += name.len() + 1;
        }
    }

    fn put_chain(&self, bytes: &mut [u8]) {
        let record_size = self.shape.record_size();
        let mut previous = 0;
        for (place, block) in self.chain.iter().enumerate() {
            let next = self.chain.get(place + 1).map_or(0, |block| block.number);
            let start = self.block_start(block.number);
            put_word(bytes, start, next);
            put_word(bytes, start + PREVIOUS, previous);
            let last = block.records.len() as i32 - record_size as i32;
            put_word(bytes, start + LAST_RECORD, last as u16);
            let records = start + BLOCK_HEAD;
            bytes[records..records + block.records.len()].copy_from_slice(&block.records);
            previous = block.number;
        }
    }

    fn put_free(&self, bytes: &mut [u8]) {
        for (place, &number) in self.free.iter().enumerate() {
            let next = self.free.get(place + 1).copied().unwrap_or(0);
            put_word(bytes, self.block_start(number), next);
        }
    }

    fn block_start(&self, number: u16) -> usize {
        self.shape.header_size + (usize::from(number) - 1) * self.shape.block_size()
    }
}
