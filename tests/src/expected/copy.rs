//! Two numbers that a line notes, and the copy from the place that one names to that of the other.

use super::lines::{Line, Said};

impl Line {
    /// Carries out `.`, `/` and `x`, and no other letter.
    pub fn note(&mut self, letter: u8) -> Option<Said> {
        match letter {
            b'.' => self.first = self.number,
            b'/' => self.second = self.number,
            b'x' => self.copy(),
            _ => return None,
        }
        Some(Said::Noted(0))
    }

    /// Copies as many bytes as the line's number says, one after another: bytes just stored are
    /// copied again.
    fn copy(&mut self) {
        let from = usize::from(self.first);
        let count = usize::from(self.number);
        self.number = self.second;
        for place in from..from + count {
            if let Some(&byte) = self.buffer.get(place) {
                self.store(byte);
            }
        }
    }
}
