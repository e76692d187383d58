//! One case through every call, beside the model.

use super::case::Case;
use super::difference::{Difference, Run};
use super::question::{Memory, Subject};
use super::tally::{Call, Tally};
use crate::fence::Fence;
use crate::mutate;
use crate::random::Random;

/// Room for the largest table of a run: 32,767 blocks of 1 KB and a header.
const FILE_ROOM: usize = 40 << 20;
/// Room for a table that is damaged once more.
const OTHER_ROOM: usize = 1 << 20;
const MARK_ROOM: usize = 1 << 17;
const SMALL_ROOM: usize = 8192;
/// Room for the numbers of a record with as many fields as there can be, and some more.
const NUMBER_ROOM: usize = 16_384;
/// One accepted table in so many is gone through by a cursor.
const GONE_THROUGH_EVERY: usize = 4;
/// One table with a cursor in so many is damaged under it.
const DAMAGED_EVERY: usize = 4;
/// One table with blobs in so many is lent as a part of its MB file.
const OVERLAPPING_EVERY: usize = 16;

/// Memory that is lent to the library, each part at a fence.
pub struct Comparer {
    pub(super) table: Fence,
    pub(super) index: Fence,
    mb: Fence,
    pub(super) key: Fence,
    pub(super) marks: Fence,
    other: Fence,
    memory: Memory,
}

impl Default for Comparer {
    fn default() -> Comparer {
        Comparer {
            table: Fence::new(FILE_ROOM),
            index: Fence::new(FILE_ROOM),
            mb: Fence::new(FILE_ROOM),
            key: Fence::new(SMALL_ROOM),
            marks: Fence::new(MARK_ROOM),
            other: Fence::new(OTHER_ROOM),
            memory: Memory {
                numbers: Fence::new(NUMBER_ROOM),
                text: Fence::new(SMALL_ROOM),
                buffer: Fence::new(SMALL_ROOM),
            },
        }
    }
}

impl Comparer {
    /// Compares all calls on a case.
    pub fn compare(&mut self, case: &Case, random: Random, tally: &mut Tally) -> Vec<Difference> {
        let mut run = Run {
            case,
            random,
            tally,
            differences: Vec::new(),
        };
        let side = run.side();
        self.table.place(&case.table, side);
        let side = run.side();
        self.index.place(&case.index, side);
        let side = run.side();
        self.mb.place(&case.mb, side);
        let good_table = self.table_check(&mut run, true) == 0;
        let good_pair = self.pair_check(&mut run, true) == 0;
        if run.random.percent(25) {
            self.table_check(&mut run, false);
            self.pair_check(&mut run, false);
        }
        self.look_up(&mut run, good_pair);
        self.ask(&mut run, good_table);
        self.ask_overlapping(&mut run);
        self.memory.write_values(&mut run);
        self.inputs_unchanged(&mut run);
        run.differences
    }

    /// Asks for the parts of the table and its blobs, and steps cursors along it.
    fn ask(&mut self, run: &mut Run, accepted: bool) {
        let subject = Subject::new(self.table.lent(), &run.case.table);
        let subject = subject.with_mb(self.mb.lent(), &run.case.mb);
        self.memory.ask_parts(run, &subject);
        self.memory.ask_blobs(run, &subject);
        let cursor = self.memory.ask_cursors(run, &subject);
        if accepted && run.random.below(GONE_THROUGH_EVERY) == 0 {
            self.memory.go_through(run, &subject);
        }
        if let Some(cursor) = cursor.filter(|_| subject.bytes.len() < OTHER_ROOM / 2) {
            if run.random.below(DAMAGED_EVERY) == 0 {
                self.step_on_damaged(run, cursor);
            }
        }
    }

    /// Steps a cursor of the case's table on a table that was damaged since.
    fn step_on_damaged(&mut self, run: &mut Run, cursor: u64) {
        let mut damaged = run.case.table.clone();
        mutate::break_table(&mut damaged, &mut run.random);
        let side = run.side();
        self.other.place(&damaged, side);
        let subject = Subject::new(self.other.lent(), &damaged);
        let mut next = Some(cursor);
        for _ in 0..3 {
            next = next.and_then(|cursor| self.memory.step(run, &subject, cursor));
        }
        if self.other.lent() != damaged || !self.other.is_intact() {
            let what = "the table was changed".into();
            run.differ(Call::Step, what, &[("asked", &damaged)]);
        }
    }

    /// Asks for blobs where the table is the end of the MB file, in one piece of memory.
    fn ask_overlapping(&mut self, run: &mut Run) {
        let Case {
            table, mb, blob, ..
        } = run.case;
        let fits = mb.len() + table.len() < OTHER_ROOM / 2;
        if blob.is_none() || !fits || run.random.below(OVERLAPPING_EVERY) != 0 {
            return;
        }
        let both = [&mb[..], table].concat();
        let side = run.side();
        self.other.place(&both, side);
        let lent = self.other.lent();
        let subject = Subject::new(&lent[mb.len()..], table).with_mb(lent, &both);
        self.memory.ask_blobs(run, &subject);
        if self.other.lent() != both || !self.other.is_intact() {
            let what = "the table or the MB file was changed".into();
            run.differ(Call::Blob, what, &[("mb", &both)]);
        }
    }

    fn inputs_unchanged(&self, run: &mut Run) {
        let table = self.table.lent() == run.case.table && self.table.is_intact();
        let index = self.index.lent() == run.case.index && self.index.is_intact();
        let mb = self.mb.lent() == run.case.mb && self.mb.is_intact();
        if !table || !index || !mb {
            let lent = [("mb", &run.case.mb[..])];
            run.differ(Call::TableCheck, "an input was changed".into(), &lent);
        }
    }
}
