//! What a run has seen: how often each call gave each answer.

use crate::calls::{refusal_of, BLANK, IN_MB, IN_NEITHER, IN_TABLE, NUMBER, RECORD, TEXT};
use crate::mb::{OWN_HEAD, UNIT};
use std::fmt;

/// Where an answer comes from.
#[derive(Clone, Copy, Debug, PartialEq, Eq)]
pub enum Call {
    /// The table check.
    TableCheck,
    /// The pair check.
    PairCheck,
    /// The scan.
    Scan,
    /// The walk.
    Walk,
    /// The lister's output.
    Listing,
    /// The header's numbers.
    Header,
    /// A field's numbers.
    Field,
    /// A cell.
    Cell,
    /// A record's cells.
    Record,
    /// A cell written.
    Write,
    /// A cursor's start.
    Start,
    /// A cursor's step.
    Step,
    /// A blob.
    Blob,
}

/// The calls in the order of the printed columns, one table each.
const COLUMNS: [&[Call]; 2] = [
    &[
        Call::TableCheck,
        Call::PairCheck,
        Call::Scan,
        Call::Walk,
        Call::Listing,
    ],
    &[
        Call::Header,
        Call::Field,
        Call::Cell,
        Call::Record,
        Call::Write,
        Call::Start,
        Call::Step,
        Call::Blob,
    ],
];
const CALLS: usize = Call::Blob as usize + 1;
const NUMBERS: usize = 28;

impl Call {
    /// The call's name in file names.
    pub fn name(self) -> &'static str {
        match self {
            Call::TableCheck => "table-check",
            Call::PairCheck => "pair-check",
            Call::Scan => "scan",
            Call::Walk => "walk",
            Call::Listing => "listing",
            Call::Header => "header",
            Call::Field => "field",
            Call::Cell => "cell",
            Call::Record => "record",
            Call::Write => "write",
            Call::Start => "start",
            Call::Step => "step",
            Call::Blob => "blob",
        }
    }

    /// The answers that a run must have seen from this call. In a listing 11 and 12 are cells.
    fn wanted(self) -> &'static [usize] {
        match self {
            Call::TableCheck => &[0, 1, 2, 3, 4, 5, 6, 7, 8, 9, 10, 14],
            Call::PairCheck => &[
                0, 1, 2, 3, 4, 5, 6, 7, 8, 9, 10, 13, 14, 21, 22, 23, 25, 26, 27,
            ],
            Call::Scan => &[0, 1, 2, 3, 4, 5, 6, 7, 8, 9, 10, 13, 14],
            Call::Walk => &[0, 1, 2, 3, 4, 5, 6, 7, 8, 9, 13, 21, 22, 23, 25, 26, 27],
            Call::Listing => &[0, 1, 2, 3, 4, 5, 6, 7, 8, 9, 10, 11, 12, 14],
            Call::Header => &[0, 1, 2, 3, 4, 5, 6, 7, 14],
            Call::Field => &[0, 1, 2, 3, 4, 5, 6, 7, 13, 14],
            Call::Cell => &[0, 1, 2, 3, 4, 5, 6, 7, 9, 11, 12, 13, 14],
            Call::Record => &[0, 1, 2, 3, 4, 5, 6, 7, 9, 13, 14],
            Call::Write => &[0, 11, 12, 13, 14],
            Call::Start => &[0, 1, 2, 3, 4, 5, 6, 7, 8, 9, 14],
            Call::Step => &[0, 1, 2, 3, 4, 5, 6, 7, 8, 9, 13, 14],
            Call::Blob => &[0, 1, 2, 3, 4, 5, 6, 7, 9, 13, 14, 18],
        }
    }
}

/// What an answer without a refusal can be beside 0.
#[derive(Clone, Copy)]
pub enum Event {
    /// A lookup found a record.
    Found,
    /// A lookup found none.
    Absent,
    /// A start came to a record.
    StartedOnRecord,
    /// A start came to the end.
    StartedAtEnd,
    /// A step came to a record.
    SteppedToRecord,
    /// A step came to the end.
    SteppedToEnd,
    /// A cursor went through an accepted table.
    GoneThrough,
    /// A blob was blank.
    BlankBlob,
    /// A blob was in its leader.
    BlobInLeader,
    /// A blob was in a block of its own.
    OwnBlob,
    /// A blob was in a suballocated block.
    SuballocatedBlob,
}

/// The events with their names.
const EVENTS: [(Event, &str); 11] = [
    (Event::Found, "keys found"),
    (Event::Absent, "keys absent"),
    (Event::StartedOnRecord, "starts on record"),
    (Event::StartedAtEnd, "starts at the end"),
    (Event::SteppedToRecord, "steps to a record"),
    (Event::SteppedToEnd, "steps to the end"),
    (Event::GoneThrough, "tables gone through"),
    (Event::BlankBlob, "blank blobs"),
    (Event::BlobInLeader, "blobs in leaders"),
    (Event::OwnBlob, "blobs in own blocks"),
    (Event::SuballocatedBlob, "suballocated blobs"),
];

/// What a cell can be: from blank to text, and behind them the numbers with a sign bit.
const WHAT: [&str; 9] = [
    "blank",
    "short",
    "long",
    "date",
    "number",
    "logical",
    "text",
    "negative number",
    "negative zero",
];
const NEGATIVE_NUMBER: usize = 7;
const NEGATIVE_ZERO: usize = 8;

/// Counts of a run.
#[derive(Default)]
pub struct Tally {
    /// Cases made.
    pub cases: u64,
    /// Listings compared.
    pub listings: u64,
    /// Keys looked up.
    pub keys: u64,
    /// Differences seen.
    pub differences: u64,
    events: [u64; EVENTS.len()],
    answers: [[u64; CALLS]; NUMBERS],
    read: [u64; WHAT.len()],
    written: [u64; WHAT.len()],
}

impl Tally {
    /// Counts an answer's number.
    pub fn count(&mut self, call: Call, number: u32) {
        if let Some(row) = self.answers.get_mut(number as usize) {
            row[call as usize] += 1;
        }
    }

    /// Counts an event.
    pub fn note(&mut self, event: Event) {
        self.events[event as usize] += 1;
    }

    /// Counts the answer of a call that is lent numbers or writes a value. The first numbers say what the
    /// cell is and its value, or where the blob begins.
    pub fn count_answer(&mut self, call: Call, answer: u32, numbers: &[u64]) {
        self.count(call, refusal_of(answer.into()));
        match (call, answer) {
            (Call::Start, RECORD) => self.note(Event::StartedOnRecord),
            (Call::Start, 0) => self.note(Event::StartedAtEnd),
            (Call::Step, RECORD) => self.note(Event::SteppedToRecord),
            (Call::Step, 0) => self.note(Event::SteppedToEnd),
            (Call::Cell, 0) => count_what(&mut self.read, numbers),
            (Call::Write, 0) => count_what(&mut self.written, numbers),
            (Call::Blob, IN_NEITHER) => self.note(Event::BlankBlob),
            (Call::Blob, IN_TABLE) => self.note(Event::BlobInLeader),
            (Call::Blob, IN_MB) => self.note(block_of_blob(numbers)),
            _ => {}
        }
    }

    /// How often a call gave an answer.
    pub fn seen(&self, call: Call, number: usize) -> u64 {
        self.answers[number][call as usize]
    }

    /// The names of what should have come up and did not.
    pub fn missing(&self) -> Vec<String> {
        let judged = |call: &&Call| **call != Call::Listing || self.listings > 0;
        let mut missing = Vec::new();
        for call in COLUMNS.concat().iter().filter(judged) {
            let unseen = |number: &&usize| self.seen(*call, **number) == 0;
            let unseen = call.wanted().iter().filter(unseen);
            missing.extend(unseen.map(|number| format!("answer {number} of {}", call.name())));
        }
        let events = EVENTS.iter().zip(&self.events);
        let unseen = events.filter(|(_, &count)| count == 0);
        missing.extend(unseen.map(|((_, name), _)| name.to_string()));
        for (what, (read, written)) in WHAT.iter().zip(self.read.iter().zip(&self.written)) {
            if *read == 0 || *written == 0 {
                missing.push(format!("a {what} read, or one written,"));
            }
        }
        missing
    }

    fn calls(&self) -> u64 {
        let all: u64 = self.answers.iter().flatten().sum();
        let listings = self.answers.iter().map(|row| row[Call::Listing as usize]);
        all - listings.sum::<u64>()
    }
}

/// In which kind of block a blob is: one of its own has it right behind the head, where no chunk
/// begins.
fn block_of_blob(part: &[u64]) -> Event {
    let own = part
        .first()
        .is_some_and(|start| start % UNIT as u64 == OWN_HEAD as u64);
    if own {
        Event::OwnBlob
    } else {
        Event::SuballocatedBlob
    }
}

/// Counts what a cell is, by the first two of its numbers.
fn count_what(counts: &mut [u64; WHAT.len()], numbers: &[u64]) {
    let row = match *numbers {
        [NUMBER, value, ..] if value == (-0.0_f64).to_bits() => NEGATIVE_ZERO,
        [NUMBER, value, ..] if f64::from_bits(value).is_sign_negative() => NEGATIVE_NUMBER,
        [what @ BLANK..=TEXT, ..] => (what - BLANK) as usize,
        _ => return,
    };
    counts[row] += 1;
}

impl fmt::Display for Tally {
    fn fmt(&self, out: &mut fmt::Formatter) -> fmt::Result {
        let first = [
            ("cases", self.cases),
            ("calls compared", self.calls()),
            ("keys looked up", self.keys),
            ("accepted tables", self.seen(Call::TableCheck, 0)),
            ("accepted pairs", self.seen(Call::PairCheck, 0)),
            ("listings", self.listings),
        ];
        let events = EVENTS.iter().zip(self.events);
        let events = events.map(|((_, name), count)| (*name, count));
        for (name, count) in first.into_iter().chain(events) {
            writeln!(out, "{name:<19} {count:>9}")?;
        }
        for columns in COLUMNS {
            self.print_answers(columns, out)?;
        }
        writeln!(out, "In listings 11 and 12 are tables with such cells.\n")?;
        writeln!(out, "{:<15} {:>11} {:>10}", "cell", "read", "written")?;
        for (what, (read, written)) in WHAT.iter().zip(self.read.iter().zip(&self.written)) {
            writeln!(out, "{what:<15} {read:>11} {written:>10}")?;
        }
        Ok(())
    }
}

impl Tally {
    /// Prints the answers of some calls, a row for each number that came up.
    fn print_answers(&self, columns: &[Call], out: &mut fmt::Formatter) -> fmt::Result {
        write!(out, "\nanswer")?;
        for call in columns {
            write!(out, " {:>11}", call.name())?;
        }
        writeln!(out)?;
        for number in 0..NUMBERS {
            if columns.iter().all(|call| self.seen(*call, number) == 0) {
                continue;
            }
            write!(out, "{number:>6}")?;
            for call in columns {
                write!(out, " {:>11}", self.seen(*call, number))?;
            }
            writeln!(out)?;
        }
        Ok(())
    }
}
