//! Refusal numbers: those that a text writes, those of a list of specs/, and the rows of docs/GUARANTEES.md that set
//! the two beside each other.

use crate::names::{of_text, Name};
use crate::sources::{declaration, read};

/// The enum of the refusals.
const REFUSALS: &str = "crates/header/src/refusal.rt";
/// The section of docs/GUARANTEES.md that has the rows.
const SECTION: &str = "\n## Which refusals a call can give\n";

/// What the page says of some calls: their numbers, the names of their list, and the law.
pub struct Row<'a> {
    pub calls: Vec<Name<'a>>,
    pub numbers: Vec<u32>,
    pub list: Vec<Name<'a>>,
    pub law: Name<'a>,
}

pub fn rows(document: &str) -> Vec<Row<'_>> {
    let (_, section) = document.split_once(SECTION).expect("the section");
    let section = section.split("\n## ").next().unwrap_or(section);
    section.lines().filter_map(row).collect()
}

fn row(line: &str) -> Option<Row<'_>> {
    if !line.starts_with("| `") {
        return None;
    }
    let cells: Vec<&str> = line.split('|').collect();
    let names = |at: usize| of_text(cells[at], 0, &[]);
    Some(Row {
        calls: names(1),
        numbers: numbers_in(cells[2]),
        list: names(3),
        law: names(4).pop()?,
    })
}

/// The numbers that a text writes: `1 to 7, 14, then 8 or 9`.
pub fn numbers_in(text: &str) -> Vec<u32> {
    let mut numbers: Vec<u32> = Vec::new();
    let mut goes_on = false; // behind 'to'
    let words = text.split(|c: char| !c.is_alphanumeric());
    for word in words.filter(|word| !word.is_empty()) {
        if let Ok(number) = word.parse::<u32>() {
            let last = numbers.last().filter(|_| goes_on);
            numbers.extend(last.map_or(number, |last| last + 1)..=number);
        }
        goes_on = word == "to";
    }
    numbers
}

/// The refusals of the code with their numbers, each by the name that C has for it: `TooShort = 1` is TOO_SHORT.
pub fn refusals_of_code() -> Vec<(String, u32)> {
    let source = read(REFUSALS);
    let variants = source
        .lines()
        .filter_map(|line| line.trim().trim_end_matches(',').split_once(" = "));
    variants
        .filter_map(|(name, number)| Some((upper(name), number.parse().ok()?)))
        .collect()
}

/// A name of words that begin with capitals, as C writes it.
fn upper(name: &str) -> String {
    let mut all = String::new();
    for c in name.chars() {
        if c.is_uppercase() && !all.is_empty() {
            all.push('_');
        }
        all.extend(c.to_uppercase());
    }
    all
}

/// The number of a refusal by its name in the code.
fn number_of(refusal: &str) -> Option<u32> {
    let name = upper(refusal);
    let all = refusals_of_code();
    let found = all.into_iter().find(|(each, _)| *each == name);
    found.map(|(_, number)| number)
}

/// The numbers of a refusal, or of a definition in a file under crates/: of the refusals and the names it is made of.
pub fn numbers_of(file: &str, name: &str) -> Vec<u32> {
    if let Some(number) = number_of(name) {
        return vec![number];
    }
    let source = read(&format!("crates/{file}"));
    let start = format!("\n{name} = ");
    let Some((_, right)) = source.split_once(&start) else {
        let from = origin(&source, name).unwrap_or_else(|| panic!("{file}: no {name}"));
        return numbers_of(&from, name);
    };
    let right = right.split("\n\n").next().unwrap_or(right);
    let words = right.split(|c: char| c.is_whitespace() || "()[]".contains(c));
    let parts = words.filter(|word| !["", "∷", "++"].contains(word));
    parts.flat_map(|part| numbers_of(file, part)).collect()
}

/// The file from which a source takes a name: `use Rattle.table.specs.Table.{table_refusals}`.
fn origin(source: &str, name: &str) -> Option<String> {
    let mut imports = source
        .lines()
        .filter_map(|line| line.strip_prefix("use Rattle.")?.split_once(".{"));
    let (module, _) = imports.find(|(_, names)| {
        let mut names = names.trim_end_matches('}').split(", ");
        names.any(|each| each == name)
    })?;
    let (owner, path) = module.split_once(".specs.")?;
    Some(format!("{owner}/specs/{path}.antt"))
}

/// What a law of a file under crates/ states.
pub fn statement(file: &str, law: &str) -> String {
    let source = read(&format!("crates/{file}"));
    let mut lines = source
        .lines()
        .skip_while(|line| declaration(line) != Some(law));
    let head = lines.next().unwrap_or_default().to_string();
    let ends = |line: &&str| {
        let first = line.split_whitespace().next();
        first == Some("unfolding") || first == Some(law)
    };
    lines
        .take_while(|line| !ends(line))
        .fold(head, |all, line| all + line)
}
