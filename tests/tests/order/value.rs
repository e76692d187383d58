//! What cells hold, and which of two comes before the other.

use brittomaz_tests::calls;

/// A blank or a number. `<` and `==` are those of the numbers, and a blank is less than every number.
#[derive(Clone, Copy, Debug, PartialEq, PartialOrd)]
pub enum Value {
    Blank,
    /// A short, a long or a date.
    Whole(i64),
    /// A number or a currency.
    Double(f64),
}

impl Value {
    /// The value of a cell that was read, or of one to be written, by its first two numbers.
    pub fn of(what: u64, value: u64) -> Value {
        match what {
            calls::BLANK => Value::Blank,
            calls::SHORT | calls::LONG | calls::DATE => Value::Whole(value as i64),
            calls::NUMBER => Value::Double(f64::from_bits(value)),
            _ => panic!("{what} is no number"),
        }
    }

    /// Whether it is no blank.
    pub fn is_number(self) -> bool {
        self != Value::Blank
    }

    /// Whether this is negative zero and the other zero.
    pub fn is_negative_zero_before(self, other: Value) -> bool {
        let (Value::Double(one), Value::Double(zero)) = (self, other) else {
            return false;
        };
        one == zero && one.is_sign_negative() && zero.is_sign_positive()
    }

    /// Whether this is to come before the other: it is less, or negative zero beside zero.
    pub fn comes_before(self, other: Value) -> bool {
        self < other || self.is_negative_zero_before(other)
    }

    /// Whether the two are to have the same bytes: they are equal, and not the two zeros.
    pub fn is_same(self, other: Value) -> bool {
        self == other
            && !self.is_negative_zero_before(other)
            && !other.is_negative_zero_before(self)
    }
}
