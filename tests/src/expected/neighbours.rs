//! Every key in a table's blocks and the keys beside it, each looked up both ways.

use super::lines::Line;
use super::pair::{Files, MARKS};
use super::show::hex;
use crate::layout::*;
use crate::model::{pair_check, scan, walk};

/// Most bytes in a key that is sought.
const MOST_KEY: usize = 255;
/// The greatest number that the program counts to.
const MOST_COUNTED: usize = 65_535;

/// How many keys of the line's number of bytes had which answers, behind the first that differs.
pub fn look_up(line: &Line) -> String {
    let mut tally = Tally::default();
    let mut shown = String::new();
    for key in keys(&line.buffer, line.number.into()) {
        if !tally.count(line, &key) && tally.differ == 1 {
            let looked_up = Files::of(line).look_up(&key, &mut marks(line));
            shown = format!(" first {}{looked_up}", hex(&key));
        }
    }
    shown + &tally.shown()
}

fn marks(line: &Line) -> [u8; MARKS as usize] {
    [line.lent.fill; MARKS as usize]
}

/// Numbers of keys, and of index blocks.
#[derive(Default)]
struct Tally {
    keys: usize,
    fit: usize,
    found: usize,
    absent: usize,
    differ: usize,
    read: usize,
}

impl Tally {
    /// Counts a key. Answers whether walk and scan agree on it.
    fn count(&mut self, line: &Line, key: &[u8]) -> bool {
        let Files { table, index } = Files::of(line);
        let mut marks = marks(line);
        self.keys += 1;
        self.fit += usize::from(pair_check(table, index, &mut marks).is_ok());
        let walked = walk(table, index, key);
        self.read += walked.map_or(0, |walked| usize::from(walked.index_blocks));
        let (Ok(walked), Ok(scanned)) = (walked, scan(table, key, &mut marks)) else {
            self.differ += 1;
            return false;
        };
        let agree = walked.found == scanned;
        match (agree, scanned) {
            (false, _) => self.differ += 1,
            (true, Some(_)) => self.found += 1,
            (true, None) => self.absent += 1,
        }
        agree
    }

    fn shown(&self) -> String {
        let numbers = [
            (self.keys, "keys"),
            (self.fit, "fit"),
            (self.found, "found"),
            (self.absent, "absent"),
            (self.differ, "differ"),
            (self.read, "read"),
        ];
        let shown = numbers.map(|(number, name)| format!(" {} {name}", number.min(MOST_COUNTED)));
        shown.concat()
    }
}

/// The keys of a length in a table's blocks, each with the one before and the one behind it; then the
/// least and the greatest. Of records whose key would be too long, each of the three is zeros.
fn keys(buffer: &[u8], length: usize) -> Vec<Vec<u8>> {
    let least = vec![0; length.min(MOST_KEY)];
    let greatest = vec![0xFF; length.min(MOST_KEY)];
    let mut keys = Vec::new();
    for start in records(buffer) {
        if length > MOST_KEY {
            keys.extend([least.clone(), least.clone(), least.clone()]);
            continue;
        }
        let key: Vec<u8> = (start..start + length)
            .map(|place| byte(buffer, place))
            .collect();
        let beside = [before(&key), behind(&key)];
        keys.push(key);
        keys.extend(beside);
    }
    keys.extend([least, greatest]);
    keys
}

/// Where the records of all blocks begin, by the words of a table that may be a broken one.
fn records(buffer: &[u8]) -> Vec<usize> {
    let word = |place| u16::from_le_bytes([byte(buffer, place), byte(buffer, place + 1)]);
    let block_size = usize::from(byte(buffer, BLOCK_UNITS)) * UNIT;
    let record_size = usize::from(word(RECORD_SIZE));
    let mut starts = Vec::new();
    for block in 0..usize::from(word(BLOCKS)) {
        let head = usize::from(word(HEADER_SIZE)) + block * block_size;
        let last = usize::from(word(head + LAST_RECORD));
        if record_size > 0 && last <= i16::MAX as usize {
            let count = last / record_size + 1;
            starts.extend((0..count).map(|place| head + BLOCK_HEAD + place * record_size));
        }
    }
    starts
}

/// A byte of the buffer, 0 outside it.
fn byte(buffer: &[u8], place: usize) -> u8 {
    buffer.get(place).copied().unwrap_or(0)
}

/// The key right before another of its length, in byte order; before the least comes the greatest.
fn before(key: &[u8]) -> Vec<u8> {
    let mut before = key.to_vec();
    for byte in before.iter_mut().rev() {
        *byte = byte.wrapping_sub(1);
        if *byte != 0xFF {
            break;
        }
    }
    before
}

/// The key right behind another of its length, in byte order; behind the greatest comes the least.
fn behind(key: &[u8]) -> Vec<u8> {
    let mut behind = key.to_vec();
    for byte in behind.iter_mut().rev() {
        *byte = byte.wrapping_add(1);
        if *byte != 0 {
            break;
        }
    }
    behind
}

#[cfg(test)]
mod tests {
    use super::*;

    #[test]
    fn beside_a_key() {
        assert_eq!(before(&[1, 0, 0]), [0, 0xFF, 0xFF]);
        assert_eq!(before(&[0, 0]), [0xFF, 0xFF]);
        assert_eq!(behind(&[1, 0xFF, 0xFF]), [2, 0, 0]);
        assert_eq!(behind(&[0xFF]), [0]);
        assert_eq!(behind(&[]), [0; 0]);
    }
}
