//! The lister as a process, its output beside the model's listing.

use super::difference::Difference;
use super::tally::{Call, Tally};
use crate::model;
use crate::random::Random;
use std::io::{self, Write};
use std::path::Path;
use std::process::{Command, Output, Stdio};

/// Runs the lister on a table and compares what it prints.
pub fn compare_listing(
    lister: &Path,
    table: &[u8],
    random: &mut Random,
    tally: &mut Tally,
) -> io::Result<Option<Difference>> {
    let expected = model::listing(table);
    count_listing(&expected, tally);
    let output = run_lister(lister, table, random)?;
    let what = if output.stdout != expected {
        other_line(&output.stdout, &expected)
    } else if !output.status.success() {
        format!("the lister ended with {}", output.status)
    } else if !output.stderr.is_empty() {
        format!("on standard error: {:?}", first_line(&output.stderr))
    } else {
        return Ok(None);
    };
    Ok(Some(Difference {
        call: Call::Listing,
        what,
        lent: Vec::new(),
    }))
}

/// Feeds the table in pieces, so that reads come back short. A lister may stop reading early.
fn run_lister(lister: &Path, table: &[u8], random: &mut Random) -> io::Result<Output> {
    let mut child = Command::new(lister)
        .stdin(Stdio::piped())
        .stdout(Stdio::piped())
        .stderr(Stdio::piped())
        .spawn()?;
    let input = child.stdin.take();
    let piece = random.pick(&[table.len().max(1), 4096, 1000, 37_000]);
    std::thread::scope(|scope| {
        scope.spawn(move || {
            let Some(mut input) = input else { return };
            for part in table.chunks(piece) {
                if input.write_all(part).is_err() {
                    return;
                }
            }
        });
        child.wait_with_output()
    })
}

/// Says which line is the first that differs, and how.
fn other_line(listed: &[u8], expected: &[u8]) -> String {
    let same = listed
        .iter()
        .zip(expected)
        .take_while(|(own, model)| own == model);
    let before = &expected[..same.count()];
    let start = before
        .iter()
        .rposition(|&byte| byte == b'\n')
        .map_or(0, |end| end + 1);
    let line = before.iter().filter(|&&byte| byte == b'\n').count() + 1;
    let (own, model) = (first_line(&listed[start..]), first_line(&expected[start..]));
    format!("line {line} is {own:?}, the model's {model:?}")
}

fn first_line(bytes: &[u8]) -> String {
    let line = bytes.split(|&byte| byte == b'\n').next().unwrap_or(bytes);
    String::from_utf8_lossy(&line[..line.len().min(80)]).into_owned()
}

fn count_listing(expected: &[u8], tally: &mut Tally) {
    tally.listings += 1;
    let line = first_line(expected);
    let refused = line.strip_prefix("refused ").map(str::parse);
    match refused {
        Some(Ok(number)) => tally.count(Call::Listing, number),
        _ => tally.count(Call::Listing, 0),
    }
    for (cell, number) in [(b"|!11", 11), (b"|!12", 12)] {
        if expected.windows(4).any(|part| part == cell) {
            tally.count(Call::Listing, number);
        }
    }
}
