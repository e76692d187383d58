//! What is measured on which table.

use super::Which;

/// A call with certain arguments, or with several in turn.
#[derive(Clone, Copy, Debug, PartialEq, Eq)]
pub enum Task {
    /// The table check.
    TableCheck,
    /// The pair check.
    PairCheck,
    /// The scan of the last key.
    ScanLast,
    /// The scan of a key that is greater than all.
    ScanAbsent,
    /// The walk, one after another of many keys.
    Walk,
    /// The header.
    Header,
    /// Each field.
    Field,
    /// A cell of each record, the fields in turn.
    Cell,
    /// Each record.
    Record,
    /// Each record with no room for its cells, which is refused right behind the header's rules.
    RecordNoRoom,
    /// The step from each record.
    Step,
    /// The writing of each value of the first record.
    Write,
    /// Each memo.
    Blob,
}

impl Task {
    /// Checks and lookups.
    const LOOKUPS: [Task; 5] = [
        Task::TableCheck,
        Task::PairCheck,
        Task::ScanLast,
        Task::ScanAbsent,
        Task::Walk,
    ];
    /// The parts of a table, the cursor and the writing.
    const PARTS: [Task; 7] = [
        Task::Header,
        Task::Field,
        Task::Cell,
        Task::Record,
        Task::RecordNoRoom,
        Task::Step,
        Task::Write,
    ];

    /// The blobs of a table.
    const BLOBS: [Task; 1] = [Task::Blob];

    /// The tasks that are measured on a table.
    pub fn all_of(which: Which) -> &'static [Task] {
        match which {
            Which::Small | Which::Middle | Which::Large => &Task::LOOKUPS,
            Which::Fields => &Task::PARTS,
            Which::Memos | Which::MemosLarge => &Task::BLOBS,
        }
    }

    /// The task's name on the command line and in tables.
    pub fn name(self) -> &'static str {
        match self {
            Task::TableCheck => "table-check",
            Task::PairCheck => "pair-check",
            Task::ScanLast => "scan-last",
            Task::ScanAbsent => "scan-absent",
            Task::Walk => "walk",
            Task::Header => "header",
            Task::Field => "field",
            Task::Cell => "cell",
            Task::Record => "record",
            Task::RecordNoRoom => "record-no-room",
            Task::Step => "step",
            Task::Write => "write",
            Task::Blob => "blob",
        }
    }

    /// The task of a name on the command line.
    pub fn named(name: &str) -> Option<Task> {
        let all = [&Task::LOOKUPS[..], &Task::PARTS, &Task::BLOBS].concat();
        all.into_iter().find(|task| task.name() == name)
    }
}
