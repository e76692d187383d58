//! What is measured: the library and the model are asked the same, and answer it.

use brittomaz_tests::bench::{Data, Measured, Task, Which, Who};
use brittomaz_tests::calls::{refusal_of, table_check, IN_MB};
use brittomaz_tests::layout::MOST_BLOCKS;
use brittomaz_tests::model::Refusal;

/// Compares the two sides over a whole round of a task.
fn compare(task: Task, data: &Data) {
    let mut ours = Measured::new(task, data);
    let mut rust = Measured::new(task, data);
    let refusal = match task {
        Task::RecordNoRoom => Refusal::Buffer.number(),
        _ => 0,
    };
    for _ in 0..ours.round() {
        let answer = ours.call(Who::Ours);
        assert_eq!(answer, rust.call(Who::Rust), "{task:?}");
        assert_eq!(refusal_of(answer), refusal.into(), "{task:?}");
        assert!(ours.written() == rust.written(), "{task:?}");
    }
}

#[test]
fn both_sides_do_the_same() {
    for which in [Which::Small, Which::Fields, Which::Memos, Which::MemosLarge] {
        let data = Data::make(which);
        for &task in Task::all_of(which) {
            compare(task, &data);
        }
    }
}

#[test]
fn the_table_of_eight_fields_is_accepted() {
    let data = Data::make(Which::Fields);
    assert_eq!(table_check(&data.table, &mut [0; MOST_BLOCKS as usize]), 0);
    assert_eq!(Measured::new(Task::Record, &data).round(), 16 * 74);
    assert_eq!(Measured::new(Task::Write, &data).round(), 8);
}

/// Half of the memos are in the suballocated block at 1000, half in blocks of their own behind it.
#[test]
fn the_memos_are_in_blocks_of_both_kinds() {
    for (which, length) in [
        (Which::Memos, 66 << 12),
        (Which::MemosLarge, (66 << 12) + (64 << 20)),
    ] {
        let data = Data::make(which);
        assert_eq!(data.mb.len(), length);
        let mut measured = Measured::new(Task::Blob, &data);
        let starts = (0..measured.round()).map(|_| {
            assert_eq!(measured.call(Who::Rust), IN_MB.into());
            measured.written().1[0]
        });
        let (first, own): (Vec<u64>, Vec<u64>) = starts.partition(|start| *start < 0x2000);
        assert_eq!((first.len(), own.len()), (64, 64));
        assert!(own.iter().all(|start| start % 4096 == 9));
    }
}
