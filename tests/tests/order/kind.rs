//! The kinds of cells that hold numbers, and stored numbers of them at random.

use brittomaz_tests::calls::kind_number;
use brittomaz_tests::codes;
use brittomaz_tests::generate::StoredField;
use brittomaz_tests::model::Field;
use brittomaz_tests::random::Random;

/// How far from a limit a stored number may be that is close to it.
const CLOSE: u64 = 3;

/// A kind of cells. Their bytes are taken as one big-endian number, the stored number.
#[derive(Debug)]
pub struct Kind {
    pub code: u8,
    pub width: u8,
    /// The stored number of the least number that there is.
    pub least: u64,
    /// The stored number of the greatest.
    pub greatest: u64,
}

pub const KINDS: [Kind; 5] = [
    Kind {
        code: codes::DATE,
        width: 4,
        least: 0x8000_8D40,
        greatest: 0x8037_B9DB,
    },
    Kind {
        code: codes::SHORT,
        width: 2,
        least: 0x0001,
        greatest: 0xFFFF,
    },
    Kind {
        code: codes::LONG,
        width: 4,
        least: 0x0000_0001,
        greatest: 0xFFFF_FFFF,
    },
    doubles(codes::CURRENCY),
    doubles(codes::NUMBER),
];

const fn doubles(code: u8) -> Kind {
    Kind {
        code,
        width: 8,
        least: 0x0010_0000_0000_0000,
        greatest: 0xFFEF_FFFF_FFFF_FFFF,
    }
}

impl Kind {
    /// The kind of a type code, where its cells hold numbers.
    pub fn of(code: u8) -> Option<&'static Kind> {
        KINDS.iter().find(|kind| kind.code == code)
    }

    pub fn field(&self) -> StoredField {
        StoredField {
            code: self.code,
            width: self.width,
        }
    }

    /// What the values of its cells are.
    pub fn what(&self) -> u64 {
        let field = Field::from_stored(self.code, self.width);
        kind_number(field.expect("a permitted width").kind)
    }

    /// Whether there is a negative zero beside zero.
    pub fn has_two_zeros(&self) -> bool {
        matches!(self.code, codes::CURRENCY | codes::NUMBER)
    }

    /// Whether cells before the least number have no meaning; the blank apart.
    pub fn has_refused_before(&self) -> bool {
        self.least > 1
    }

    /// Whether cells behind the greatest number have no meaning.
    pub fn has_refused_behind(&self) -> bool {
        self.greatest < self.last()
    }

    /// The stored number of zero.
    pub fn zero(&self) -> u64 {
        self.last() / 2 + 1
    }

    /// The stored number with all bits set.
    fn last(&self) -> u64 {
        u64::MAX >> (64 - 8 * self.width)
    }

    /// The bytes of a stored number; what does not fit in the width is left out.
    pub fn bytes(&self, stored: u64) -> Vec<u8> {
        stored.to_be_bytes()[8 - usize::from(self.width)..].to_vec()
    }

    /// A stored number: close to a limit, between the least and the greatest, or any.
    pub fn any_stored(&self, random: &mut Random) -> u64 {
        let limits = [0, self.least, self.zero(), self.greatest];
        match random.below(3) {
            0 => {
                let limit = random.pick(&limits).wrapping_sub(CLOSE);
                limit.wrapping_add(random.bits() % (2 * CLOSE + 1))
            }
            1 => self.meant_stored(random),
            _ => random.bits(),
        }
    }

    /// A number of the kind at random, as a value. Of doubles some are not finite.
    pub fn any_number(&self, random: &mut Random) -> u64 {
        if self.has_two_zeros() {
            return random.bits();
        }
        self.meant_stored(random).wrapping_sub(self.zero())
    }

    /// A stored number between the least and the greatest.
    fn meant_stored(&self, random: &mut Random) -> u64 {
        random.within(self.least as usize..=self.greatest as usize) as u64
    }
}
