//! Times the calls beside the model's, or makes those of one task for a profiler.

use brittomaz_tests::bench::{print_times, Data, Measured, Task, Which, Who};
use std::io;
use std::path::PathBuf;
use std::process::ExitCode;

const USAGE: &str = "bench
bench --write DIR
bench --once CALL SIDE TABLE [--data DIR]
CALL is table-check, pair-check, scan-last, scan-absent, walk, header, field, cell, record,
record-no-room, step, write or blob; SIDE is ours or rust; TABLE is small, middle, large, fields,
memos or memos-large";

enum Command {
    Times,
    Write(PathBuf),
    Once(Task, Who, Which, Option<PathBuf>),
}

fn main() -> ExitCode {
    let Some(command) = read_command() else {
        eprintln!("{USAGE}");
        return ExitCode::from(2);
    };
    let done = match command {
        Command::Times => {
            print_times();
            Ok(())
        }
        Command::Write(directory) => write_data(directory),
        Command::Once(task, who, which, data) => once(task, who, which, data),
    };
    match done {
        Ok(()) => ExitCode::SUCCESS,
        Err(error) => {
            eprintln!("the data could not be read or written: {error}");
            ExitCode::FAILURE
        }
    }
}

fn read_command() -> Option<Command> {
    let arguments: Vec<String> = std::env::args().skip(1).collect();
    let arguments: Vec<&str> = arguments.iter().map(String::as_str).collect();
    let once = |task, who, which, data: Option<&str>| {
        let (task, who, which) = (Task::named(task)?, Who::named(who)?, Which::named(which)?);
        Some(Command::Once(task, who, which, data.map(PathBuf::from)))
    };
    match arguments[..] {
        [] => Some(Command::Times),
        ["--write", directory] => Some(Command::Write(directory.into())),
        ["--once", task, who, which] => once(task, who, which, None),
        ["--once", task, who, which, "--data", directory] => {
            once(task, who, which, Some(directory))
        }
        _ => None,
    }
}

fn write_data(directory: PathBuf) -> io::Result<()> {
    for which in Which::ALL {
        Data::make(which).write(&directory, which)?;
    }
    Ok(())
}

/// Makes one round of a task and prints how many calls that was.
fn once(task: Task, who: Who, which: Which, data: Option<PathBuf>) -> io::Result<()> {
    let data = match data {
        Some(directory) => Data::read(&directory, which)?,
        None => Data::make(which),
    };
    let mut measured = Measured::new(task, &data);
    let calls = measured.round();
    for _ in 0..calls {
        measured.call(who);
    }
    println!("calls {calls}");
    Ok(())
}
