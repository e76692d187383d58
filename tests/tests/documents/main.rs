//! What the documents name is there, as they say it: names and their files, calls, refusals, crates; and each call has
//! the refusals of its law.

mod lists;
mod names;
mod sources;

use lists::{numbers_in, numbers_of, refusals_of_code, rows, statement};
use names::{files_in, names_of, Name};
use sources::{crates, declaration, declares, head_of, read, root, source_of};
use std::collections::BTreeSet;

const GUARANTEES: &str = "docs/GUARANTEES.md";
const CRATES: &str = "docs/CRATES.md";
const MANUAL: &str = "docs/MANUAL.md";
const HEADER: &str = "include/paradox.h";
/// Calls that hand out a part and no number.
const PARTS: [&str; 4] = ["cell::text", "blob::read", "header::name", "listing::line"];

/// Fails with all complaints at once.
fn none(complaints: Vec<String>) {
    assert!(complaints.is_empty(), "\n{}\n", complaints.join("\n"));
}

fn complaint(name: &Name) -> Option<String> {
    let (line, text) = (name.line, name.text);
    if name.files.is_empty() {
        let is_crate = crates().iter().any(|known| known == text);
        return (!is_crate).then(|| format!("{GUARANTEES}:{line}: no file is given for {text}"));
    }
    let is_there = name.files.iter().any(|file| declares(file, text));
    let files = name.files.join(", ");
    (!is_there).then(|| format!("{GUARANTEES}:{line}: {text} is not in {files}"))
}

#[test]
fn names_stand_in_their_files() {
    let document = read(GUARANTEES);
    let names = names_of(&document);
    assert!(names.len() > 100);
    none(names.iter().filter_map(complaint).collect());
}

#[test]
fn files_are_there() {
    let mut missing = Vec::new();
    for file in files_in(&read(GUARANTEES)) {
        let places = [root().join("crates").join(file), root().join(file)];
        if !places.iter().any(|place| place.exists()) {
            missing.push(format!("{GUARANTEES}: there is no {file}"));
        }
    }
    none(missing);
}

/// The functions that a text names by their crate or their type, in sentences and in code.
fn calls_in(text: &str) -> BTreeSet<&str> {
    let words = text.split(|c: char| !(c.is_alphanumeric() || c == '_' || c == ':'));
    let is_call = |word: &&str| {
        let named = word.rsplit_once("::");
        named.is_some_and(|(_, name)| name.starts_with(char::is_lowercase))
    };
    words.filter(is_call).collect()
}

#[test]
fn calls_have_no_requires() {
    let document = read(CRATES);
    let (calls, helpers) = document
        .split_once("\n## Helpers\n")
        .expect("a section 'Helpers'");
    assert!(calls_in(calls).len() > 10);
    let mut complaints = Vec::new();
    for call in calls_in(&document) {
        let Some(head) = head_of(call) else {
            complaints.push(format!("{CRATES}: no crate hands out {call}"));
            continue;
        };
        let mut lines = head.lines().map(str::trim_start);
        let asks = lines.any(|line| line.starts_with("requires"));
        if asks && calls_in(calls).contains(call) {
            complaints.push(format!(
                "{CRATES}: {call} has a `requires` and belongs under 'Helpers'"
            ));
        }
    }
    assert!(!calls_in(helpers).is_empty());
    none(complaints);
}

/// The refusals of a text: in each line the name between `start` and `middle`, and the number behind it.
fn refusals(text: &str, start: &str, middle: &str) -> Vec<(String, u32)> {
    let of_line = |line: &str| {
        let (name, rest) = line.trim_start().strip_prefix(start)?.split_once(middle)?;
        let digits = rest.split(|c: char| !c.is_ascii_digit()).next()?;
        Some((name.to_string(), digits.parse().ok()?))
    };
    text.lines().filter_map(of_line).collect()
}

#[test]
fn refusals_have_one_name_and_number() {
    let of_code = refusals_of_code();
    assert!(of_code.len() > 20);
    let mut of_header = refusals(&read(HEADER), "PARADOX_", " = ");
    assert_eq!(of_header.remove(0), ("ACCEPTED".to_string(), 0));
    assert_eq!(of_code, of_header);
    let manual = read(MANUAL);
    for (name, number) in &of_code {
        let row = format!("\n| {number} | `PARADOX_{name}` |");
        assert!(manual.contains(&row), "{MANUAL}: no row for {name}");
    }
}

fn exports() -> Vec<String> {
    let source = source_of("paradox");
    let exported = source
        .lines()
        .filter(|line| line.contains("extern \"C\" fn"));
    let exports: Vec<String> = exported
        .filter_map(|line| declaration(line).map(str::to_string))
        .collect();
    assert!(!exports.is_empty());
    exports
}

#[test]
fn exports_are_declared_and_described() {
    let (header, manual) = (read(HEADER), read(MANUAL));
    for name in exports() {
        let start = format!(" {name}(");
        let mut prototypes = header.lines().filter(|line| line.starts_with("uint"));
        assert!(
            prototypes.any(|line| line.contains(&start)),
            "{HEADER}: {name}"
        );
        assert!(manual.contains(&format!("`{name}`")), "{MANUAL}: {name}");
    }
}

#[test]
fn every_call_has_its_refusals() {
    let (document, guarantees) = (read(CRATES), read(GUARANTEES));
    let calls = document.split("\n## Helpers\n").next().unwrap_or_default();
    let mut expected: BTreeSet<String> = calls_in(calls)
        .iter()
        .map(|call| call.to_string())
        .collect();
    expected.retain(|call| !PARTS.contains(&call.as_str()));
    expected.extend(exports());
    let rows = rows(&guarantees);
    let named: Vec<String> = rows
        .iter()
        .flat_map(|row| &row.calls)
        .map(|call| call.text.to_string())
        .collect();
    assert_eq!(
        named.len(),
        expected.len(),
        "{GUARANTEES}: a call in two rows, or in none"
    );
    assert_eq!(named.into_iter().collect::<BTreeSet<_>>(), expected);
}

#[test]
fn refusals_are_those_of_the_lists() {
    let mut complaints = Vec::new();
    for row in rows(&read(GUARANTEES)) {
        let law = row.law.text;
        let states = statement(row.law.files[0], law);
        let mut listed = Vec::new();
        for name in &row.list {
            listed.extend(numbers_of(name.files[0], name.text));
            if !states
                .split(|c: char| !(c.is_alphanumeric() || c == '_'))
                .any(|word| word == name.text)
            {
                complaints.push(format!("{GUARANTEES}: {law} does not name {}", name.text));
            }
        }
        if listed != row.numbers {
            let numbers = &row.numbers;
            complaints.push(format!(
                "{GUARANTEES}: {law}: {numbers:?}, and the list has {listed:?}"
            ));
        }
    }
    none(complaints);
}

/// The exports that a row of the manual names before a colon, as `Checks, scan: ..`; none where it names none.
fn named_in(cell: &str) -> BTreeSet<String> {
    let fronts = cell
        .split(". ")
        .filter_map(|sentence| sentence.split_once(':'));
    let words = fronts.flat_map(|(front, _)| front.split(", "));
    let all = exports();
    words
        .flat_map(|word| match word.trim().to_lowercase().as_str() {
            "checks" => vec!["table_check".to_string(), "pair_check".to_string()],
            word => vec![word.replace(' ', "_")],
        })
        .map(|word| format!("paradox_{word}"))
        .filter(|name| all.contains(name))
        .collect()
}

#[test]
fn the_manual_has_the_same_refusals() {
    let (manual, guarantees) = (read(MANUAL), read(GUARANTEES));
    let (_, section) = manual
        .split_once("\n## Refusals\n")
        .expect("a section 'Refusals'");
    let rows = rows(&guarantees);
    let mut complaints = Vec::new();
    for name in exports() {
        let row = rows
            .iter()
            .find(|row| row.calls.iter().any(|call| call.text == name));
        let proved: BTreeSet<u32> = row.expect("a row").numbers.iter().copied().collect();
        let start = format!("| `{name}` |");
        let line = section.lines().find_map(|line| line.strip_prefix(&start));
        let written: BTreeSet<u32> = numbers_in(line.unwrap_or_default()).into_iter().collect();
        if written != proved {
            complaints.push(format!(
                "{MANUAL}: {name}: {written:?}, and proved is {proved:?}"
            ));
        }
    }
    for (name, number) in refusals_of_code() {
        let start = format!("| {number} | `PARADOX_{name}` |");
        let line = section.lines().find_map(|line| line.strip_prefix(&start));
        let named = named_in(
            line.and_then(|line| line.split('|').next())
                .unwrap_or_default(),
        );
        let giving = rows.iter().filter(|row| row.numbers.contains(&number));
        let given: BTreeSet<String> = giving
            .flat_map(|row| &row.calls)
            .map(|call| call.text.to_string())
            .filter(|call| call.starts_with("paradox_"))
            .collect();
        if !named.is_empty() && named != given {
            complaints.push(format!(
                "{MANUAL}: {number}: {named:?}, and proved is {given:?}"
            ));
        }
    }
    none(complaints);
}

#[test]
fn crates_are_described() {
    for document in ["README.md", "docs/ARCHITECTURE.md"] {
        let text = read(document);
        for name in crates() {
            let forms = [format!("`{name}`"), format!("`crates/{name}`")];
            assert!(
                forms.iter().any(|form| text.contains(form)),
                "{document}: {name}"
            );
        }
    }
}
