//! The table check, the pair check and the lookups of a case, beside the model.

use super::case::Case;
use super::compare::Comparer;
use super::difference::{Lent, Run};
use super::seek::keys_to_seek;
use super::tally::{Call, Event, Tally};
use crate::calls;
use crate::layout::{word, BLOCKS};
use crate::model;

/// Bytes of tables that the scans of one case may go through, and the scans made in any case.
const SCANNED_BYTES: usize = 6 << 20;
const LEAST_SCANS: usize = 12;

impl Run<'_> {
    /// Marks of a length near the number of blocks, with random contents.
    fn marks(&mut self, enough: bool) -> Vec<u8> {
        let table = &self.case.table;
        let blocks = match table.len() {
            0..=119 => self.random.below(9),
            _ => word(table, BLOCKS).into(),
        };
        let more = self.random.below(40);
        let length = if enough {
            blocks + self.random.pick(&[0, 0, 1, more])
        } else {
            let less = self.random.below(blocks + 1);
            self.random.pick(&[0, blocks.saturating_sub(1), less])
        };
        self.random.bytes(length)
    }
}

impl Comparer {
    /// Compares the table check, and answers its number.
    pub fn table_check(&mut self, run: &mut Run, enough: bool) -> u32 {
        let before = run.marks(enough);
        let mut expected = before.clone();
        let number = calls::check_number(&model::table_check(&run.case.table, &mut expected));
        let side = run.side();
        self.marks.place(&before, side);
        let answer = calls::table_check(self.table.lent(), self.marks.lent_mut());
        run.tally.count(Call::TableCheck, number);
        let answers = (answer.into(), number.into());
        let lent = [("marks", &before[..])];
        self.judge(run, Call::TableCheck, answers, &expected, &lent);
        number
    }

    /// Compares the pair check, and answers its number.
    pub fn pair_check(&mut self, run: &mut Run, enough: bool) -> u32 {
        let before = run.marks(enough);
        let mut expected = before.clone();
        let Case { table, index, .. } = run.case;
        let number = calls::check_number(&model::pair_check(table, index, &mut expected));
        let side = run.side();
        self.marks.place(&before, side);
        let answer = calls::pair_check(self.table.lent(), self.index.lent(), self.marks.lent_mut());
        run.tally.count(Call::PairCheck, number);
        let answers = (answer.into(), number.into());
        let lent = [("marks", &before[..])];
        self.judge(run, Call::PairCheck, answers, &expected, &lent);
        number
    }

    /// Looks up keys by both ways. Every key is walked for; scans stop where they take too long.
    pub fn look_up(&mut self, run: &mut Run, accepted: bool) {
        let mut keys = keys_to_seek(&run.case.table, accepted, &mut run.random);
        run.random.shuffle(&mut keys);
        let scans = SCANNED_BYTES / run.case.table.len().max(1);
        let scans = scans.max(LEAST_SCANS);
        for (place, key) in keys.iter().enumerate() {
            let side = run.side();
            self.key.place(key, side);
            run.tally.keys += 1;
            let walked = self.walk(run, key);
            if place < scans {
                let enough = accepted || run.random.percent(80);
                let scanned = self.scan(run, key, enough);
                if accepted {
                    judge_agreement(run, key, walked, scanned);
                }
            }
            if self.key.lent() != key || !self.key.is_intact() {
                run.differ(Call::Walk, "the key was changed".into(), &[("key", key)]);
            }
        }
    }

    fn scan(&mut self, run: &mut Run, key: &[u8], enough: bool) -> u64 {
        let before = run.marks(enough);
        let mut expected = before.clone();
        let packed = calls::pack_scan(model::scan(&run.case.table, key, &mut expected));
        let side = run.side();
        self.marks.place(&before, side);
        let answer = calls::scan(self.table.lent(), self.key.lent(), self.marks.lent_mut());
        count_lookup(run.tally, Call::Scan, packed);
        let lent = [("key", key), ("marks", &before)];
        self.judge(run, Call::Scan, (answer, packed), &expected, &lent);
        answer
    }

    fn walk(&mut self, run: &mut Run, key: &[u8]) -> u64 {
        let Case { table, index, .. } = run.case;
        let packed = calls::pack_walk(model::walk(table, index, key));
        let answer = calls::walk(self.table.lent(), self.index.lent(), self.key.lent());
        count_lookup(run.tally, Call::Walk, packed);
        let asked = format_args!("a key of {} bytes: ", key.len());
        run.judge(Call::Walk, asked, (answer, packed), &[("key", key)]);
        answer
    }

    /// Judges an answer and the marks behind it.
    fn judge(
        &self,
        run: &mut Run,
        call: Call,
        answers: (u64, u64),
        expected: &[u8],
        lent: &[Lent],
    ) {
        let asked = format_args!("{} marks: ", expected.len());
        run.judge(call, asked, answers, lent);
        run.judge_written(call, asked, (&self.marks, expected), lent);
    }
}

/// On an accepted pair the two ways give one place, and refuse no key of the key length.
fn judge_agreement(run: &mut Run, key: &[u8], walked: u64, scanned: u64) {
    if calls::place_of(walked) != scanned {
        let what = format!("walk {walked:#x} and scan {scanned:#x} of an accepted pair");
        run.differ(Call::Walk, what, &[("key", key)]);
    }
    let fits = model::Table::read(&run.case.table).is_ok_and(|table| table.check_key(key).is_ok());
    if fits && calls::refusal_of(scanned) != 0 {
        let what = format!("scan {scanned:#x} of an accepted pair");
        run.differ(Call::Scan, what, &[("key", key)]);
    }
}

fn count_lookup(tally: &mut Tally, call: Call, packed: u64) {
    let refusal = calls::refusal_of(packed);
    tally.count(call, refusal);
    if calls::is_found(packed) {
        tally.note(Event::Found);
    } else if refusal == 0 {
        tally.note(Event::Absent);
    }
}
