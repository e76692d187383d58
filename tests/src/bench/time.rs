//! Times of the calls, the two sides in turn, each the median of many runs.

use super::{Data, Measured, Task, Which, Who};
use std::time::{Duration, Instant};

/// The least time of one run; a shorter call is made several times in it.
const LEAST_RUN: Duration = Duration::from_micros(300);
/// The time spent on one row of the table.
const ROW: Duration = Duration::from_millis(1500);
const LEAST_RUNS: usize = 9;
const MOST_RUNS: usize = 301;

/// Measures the calls on every table and prints a Markdown table.
pub fn print_times() {
    println!("| Table | Call | Ours | Rust | Ours / Rust |");
    println!("|---|---|---:|---:|---:|");
    for which in Which::ALL {
        let data = Data::make(which);
        for &task in Task::all_of(which) {
            print_row(which, task, &data);
        }
    }
}

fn print_row(which: Which, task: Task, data: &Data) {
    let mut measured = Measured::new(task, data);
    let calls = calls_a_run(&mut measured);
    let mut ours = Vec::new();
    let mut rust = Vec::new();
    let start = Instant::now();
    while ours.len() < LEAST_RUNS || (start.elapsed() < ROW && ours.len() < MOST_RUNS) {
        ours.push(time(&mut measured, Who::Ours, calls));
        rust.push(time(&mut measured, Who::Rust, calls));
    }
    let (ours, rust) = (median(ours), median(rust));
    let ratio = ours / rust;
    println!(
        "| {} | {} | {} | {} | {ratio:.2} |",
        which.name(),
        task.name(),
        readable(ours),
        readable(rust)
    );
}

/// Whole rounds of calls that take long enough to be timed.
fn calls_a_run(measured: &mut Measured) -> usize {
    let mut calls = measured.round();
    loop {
        let seconds = time(measured, Who::Rust, calls) * calls as f64;
        if seconds >= LEAST_RUN.as_secs_f64() {
            return calls;
        }
        calls *= 2;
    }
}

/// The seconds that one call takes, over so many.
fn time(measured: &mut Measured, who: Who, calls: usize) -> f64 {
    let start = Instant::now();
    for _ in 0..calls {
        measured.call(who);
    }
    start.elapsed().as_secs_f64() / calls as f64
}

fn median(mut times: Vec<f64>) -> f64 {
    times.sort_by(f64::total_cmp);
    times[times.len() / 2]
}

fn readable(seconds: f64) -> String {
    match seconds {
        large if large >= 1e-3 => format!("{:.2} ms", large * 1e3),
        middle if middle >= 1e-6 => format!("{:.2} µs", middle * 1e6),
        small => format!("{:.0} ns", small * 1e9),
    }
}
