//! What one case has come to so far: differences, and what was counted.

use super::case::Case;
use super::tally::{Call, Tally};
use crate::fence::{Fence, Side};
use crate::random::Random;
use std::fmt;

/// Lent memory as it was before a call: its file extension and its bytes.
pub type Lent<'a> = (&'static str, &'a [u8]);

/// A difference between the library and the model.
pub struct Difference {
    /// The call that differs.
    pub call: Call,
    /// What differs.
    pub what: String,
    /// What was lent beside the files of the case: file extensions and bytes.
    pub lent: Vec<(&'static str, Vec<u8>)>,
}

/// What one case has come to so far.
pub struct Run<'a> {
    /// The case.
    pub case: &'a Case,
    /// The source of whatever is chosen at random.
    pub random: Random,
    /// The counts of the whole run.
    pub tally: &'a mut Tally,
    /// The first difference of each call.
    pub differences: Vec<Difference>,
}

impl Run<'_> {
    /// Notes a difference, the first of each call.
    pub fn differ(&mut self, call: Call, what: String, lent: &[Lent]) {
        if self.differences.iter().any(|noted| noted.call == call) {
            return;
        }
        let lent = lent.iter().map(|(name, bytes)| (*name, bytes.to_vec()));
        self.differences.push(Difference {
            call,
            what,
            lent: lent.collect(),
        });
    }

    /// Notes a difference where an answer is not the model's.
    pub fn judge(
        &mut self,
        call: Call,
        asked: fmt::Arguments,
        (answer, expected): (u64, u64),
        lent: &[Lent],
    ) {
        if answer != expected {
            let what = format!("{asked}answer {answer:#x}, the model's {expected:#x}");
            self.differ(call, what, lent);
        }
    }

    /// Notes a difference where memory that was lent for writing is not as expected.
    pub fn judge_written(
        &mut self,
        call: Call,
        asked: fmt::Arguments,
        (memory, expected): (&Fence, &[u8]),
        lent: &[Lent],
    ) {
        let written = memory.lent();
        if written != expected {
            let same = written
                .iter()
                .zip(expected)
                .take_while(|(own, model)| own == model);
            let place = same.count();
            let (own, model) = (written[place], expected[place]);
            let what = format!("{asked}lent byte {place} is {own:#x}, the model's {model:#x}");
            self.differ(call, what, lent);
        }
        if !memory.is_intact() {
            let what = format!("{asked}bytes beside the lent memory were written");
            self.differ(call, what, lent);
        }
    }

    /// The fence that lent memory is to touch.
    pub fn side(&mut self) -> Side {
        self.random.pick(&[Side::Front, Side::Back, Side::Back])
    }
}
