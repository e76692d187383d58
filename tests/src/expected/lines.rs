//! The lines of a test program's input: changes to a buffer, and letters that ask for answers.

/// Bytes in the buffer.
const BUFFER: usize = 32_768;

/// What a line lends to the calls.
#[derive(Clone, Copy)]
pub struct Lent {
    /// How many marks.
    pub marks: u16,
    /// How many bytes of the table.
    pub table: u16,
    /// How many bytes beside the table: of the index, of the MB file or of a text.
    pub index: u16,
    /// What the marks hold before a call.
    pub fill: u8,
}

impl Lent {
    /// Marks and bytes of a table, the marks filled with AA.
    pub fn new(marks: u16, table: u16) -> Lent {
        Lent {
            marks,
            table,
            index: 0,
            fill: 0xAA,
        }
    }
}

/// A line as far as it is read.
pub struct Line {
    /// The buffer with the line's changes.
    pub buffer: Vec<u8>,
    /// The number read last, or the place behind the byte stored last.
    pub number: u16,
    /// The number noted by `.`, and the place that bytes are copied from.
    pub first: u16,
    /// The number noted by `/`, and the place that bytes are copied to.
    pub second: u16,
    /// What is lent.
    pub lent: Lent,
}

/// What came of a letter.
pub enum Said {
    /// Nothing.
    Nothing,
    /// It was noted; the number is this one from now on.
    Noted(u16),
    /// An answer was printed.
    Shown(Vec<u8>),
}

/// A test program: what its letters ask for.
pub trait Program {
    /// What is lent where a line does not say it.
    fn lent(&self) -> Lent;

    /// Carries out a letter.
    fn letter(&mut self, letter: u8, line: &mut Line) -> Said;

    /// What a case prints that has asked for nothing.
    fn end_of_case(&mut self, line: &mut Line) -> Vec<u8>;

    /// Keeps what is to stay from a line of changes, the buffer apart.
    fn end_of_changes(&mut self, _line: &Line) {}
}

/// What a program prints for its input.
pub fn run(mut program: impl Program, input: &[u8]) -> Vec<u8> {
    let mut first = vec![0; BUFFER];
    let mut printed = Vec::new();
    for text in input.split(|&byte| byte == b'\n') {
        let Some((stays, name, rest)) = taken_apart(text) else {
            continue;
        };
        let mut line = Line {
            buffer: first.clone(),
            number: 0,
            first: 0,
            second: 0,
            lent: program.lent(),
        };
        let shown = line.read(&mut program, rest);
        if stays && shown.is_none() {
            program.end_of_changes(&line);
            first = line.buffer;
            continue;
        }
        let shown = shown.unwrap_or_else(|| program.end_of_case(&mut line));
        printed.extend_from_slice(&[name, &shown, b"\n"].concat());
    }
    printed
}

/// Whether a line's changes stay, its name, which ends with the first colon, and what stands behind
/// it. A comment has none of these.
fn taken_apart(text: &[u8]) -> Option<(bool, &[u8], &[u8])> {
    match text.split_first()? {
        (b'#', _) => None,
        (b'>', changes) => Some((true, &[], changes)),
        _ => {
            let colon = text.iter().position(|&byte| byte == b':');
            let (name, rest) = text.split_at(colon.map_or(text.len(), |before| before + 1));
            Some((false, name, rest))
        }
    }
}

impl Line {
    /// The part of the table that is lent, which stands at the buffer's start.
    pub fn table(&self) -> &[u8] {
        part(&self.buffer, self.lent.table)
    }

    /// The bytes lent beside the table, which stand from a place in the buffer on.
    pub fn beside(&self, place: usize) -> &[u8] {
        part(&self.buffer[place..], self.lent.index)
    }

    /// The block, the place and the field of the cell that is asked for.
    pub fn cell(&self) -> (usize, usize, usize) {
        (self.first.into(), self.second.into(), self.number.into())
    }

    /// Stores a byte where the number says and goes on behind it. Outside the buffer nothing happens.
    pub fn store(&mut self, byte: u8) {
        if let Some(place) = self.buffer.get_mut(usize::from(self.number)) {
            *place = byte;
            self.number += 1;
        }
    }

    /// Reads what stands behind a name and answers what was printed, if anything was asked.
    fn read(&mut self, program: &mut impl Program, text: &[u8]) -> Option<Vec<u8>> {
        let mut shown = None;
        let mut rest = text;
        while let Some((&byte, behind)) = rest.split_first() {
            rest = behind;
            match byte {
                b' ' => self.number = 0,
                b'=' => rest = self.store_bytes(behind),
                b'\'' => rest = self.store_text(behind),
                b'z' => self.buffer.fill(0),
                b'm' => self.lent.marks = self.number,
                b't' => self.lent.table = self.number,
                b'i' => self.lent.index = self.number,
                b'p' => self.lent.fill = self.number as u8,
                _ => match digit(byte) {
                    Some(digit) => self.number = self.number << 4 | u16::from(digit),
                    None => self.ask(program, byte, &mut shown),
                },
            }
        }
        shown
    }

    /// Carries out a letter of the program.
    fn ask(&mut self, program: &mut impl Program, letter: u8, shown: &mut Option<Vec<u8>>) {
        match program.letter(letter, self) {
            Said::Nothing => {}
            Said::Noted(number) => self.number = number,
            Said::Shown(answer) => {
                shown.get_or_insert_default().extend(answer);
                self.number = 0;
            }
        }
    }

    /// Stores the bytes that pairs of digits stand for, and answers what follows them.
    fn store_bytes<'t>(&mut self, text: &'t [u8]) -> &'t [u8] {
        let mut rest = text;
        while let [high, low, behind @ ..] = rest {
            let (Some(high), Some(low)) = (digit(*high), digit(*low)) else {
                break;
            };
            self.store(high << 4 | low);
            rest = behind;
        }
        rest
    }

    /// Stores the bytes up to a quote, and answers what follows it.
    fn store_text<'t>(&mut self, text: &'t [u8]) -> &'t [u8] {
        let mut rest = text;
        while let Some((&byte, behind)) = rest.split_first() {
            rest = behind;
            if byte == b'\'' {
                break;
            }
            self.store(byte);
        }
        rest
    }
}

/// The first bytes of a part of the buffer, or all of them where there are fewer.
fn part(bytes: &[u8], length: u16) -> &[u8] {
    &bytes[..bytes.len().min(length.into())]
}

/// The value of a hexadecimal digit.
fn digit(byte: u8) -> Option<u8> {
    match byte {
        b'0'..=b'9' => Some(byte - b'0'),
        b'a'..=b'f' => Some(byte - b'a' + 10),
        _ => None,
    }
}

#[cfg(test)]
mod tests {
    use super::*;

    /// Shows the line's number and what is stored behind it.
    struct Echo;

    impl Program for Echo {
        fn lent(&self) -> Lent {
            Lent::new(8, 6400)
        }

        fn letter(&mut self, letter: u8, line: &mut Line) -> Said {
            match letter {
                b'k' => Said::Noted(0x10),
                b'?' => Said::Shown(self.end_of_case(line)),
                _ => Said::Nothing,
            }
        }

        fn end_of_case(&mut self, line: &mut Line) -> Vec<u8> {
            let place = usize::from(line.number);
            let stored = line.buffer.get(place).copied().unwrap_or(0);
            format!(" {place}:{stored}:{}", line.lent.marks).into()
        }
    }

    fn printed(input: &str) -> String {
        String::from_utf8(run(Echo, input.as_bytes())).expect("text")
    }

    #[test]
    fn names_and_numbers() {
        assert_eq!(printed("# no case\n\na: 12\n"), "a: 18:0:8\n");
        assert_eq!(printed("a, b: 12345?\n"), "a, b: 9029:0:8\n");
        assert_eq!(printed("a: 5m k? ?\n"), "a: 16:0:5 0:0:5\n");
    }

    #[test]
    fn bytes_and_texts() {
        assert_eq!(printed("a: 900=0400\n"), "a: 2306:0:8\n");
        assert_eq!(printed("a: 3'ab'=07 4?\n"), "a: 4:98:8\n");
        assert_eq!(printed("a: 3'ab'=07 5z?\n"), "a: 5:0:8\n");
        assert_eq!(printed("a: 7fff=0102\n"), "a: 32768:0:8\n");
    }

    #[test]
    fn changes_stay_or_go() {
        let input = "> 3=01\na: 3=02 3?\nb: 3?\n";
        assert_eq!(printed(input), "a: 3:2:8\nb: 3:1:8\n");
    }
}
