//! The names of docs/GUARANTEES.md, each with the files of which one has to declare it.
//!
//! What stands in back-quotes is a file, a name, or, with a space in it, neither. A name stands in the file in
//! parentheses behind it, up to the end of its cell or sentence: `one`, `other` (`words/specs/Each.antt`). One without
//! such a file stands in a file of its row or paragraph, of its column's first row, or of the section's paragraph
//! 'Names of this section stand in ..'.

/// How the paragraph begins that gives the files of a section.
const OF_SECTION: &str = "Names of this section stand in";
/// Words of the language, which no file declares.
const LANGUAGE: [&str; 2] = ["requires", "f64"];

pub struct Name<'a> {
    pub text: &'a str,
    /// The line of the document.
    pub line: usize,
    pub files: Vec<&'a str>,
}

pub fn names_of(document: &str) -> Vec<Name<'_>> {
    let (mut names, mut section, mut line) = (Vec::new(), Vec::new(), 1);
    for part in document.split("\n\n") {
        let pairs = part.matches('`').count() % 2 == 0;
        assert!(pairs, "a back-quote without its pair, from line {line} on");
        if part.starts_with('#') {
            section.clear();
        } else if part.starts_with(OF_SECTION) {
            section = files_in(part);
        } else if part.starts_with('|') {
            names.extend(of_table(part, line, &section));
        } else {
            let otherwise = [&files_in(part), &section[..]].concat();
            names.extend(of_text(part, line, &otherwise));
        }
        line += part.matches('\n').count() + 2;
    }
    names
}

/// The files that a text names.
pub fn files_in(text: &str) -> Vec<&str> {
    text.split('`')
        .skip(1)
        .step_by(2)
        .filter(|part| is_file(part))
        .collect()
}

fn is_file(quoted: &str) -> bool {
    let ends = [".antt", ".rt", ".md"];
    quoted.contains('/') || ends.iter().any(|end| quoted.ends_with(end))
}

fn is_name(quoted: &str) -> bool {
    !is_file(quoted) && !quoted.contains(char::is_whitespace) && !LANGUAGE.contains(&quoted)
}

fn of_table<'a>(table: &'a str, line: usize, section: &[&'a str]) -> Vec<Name<'a>> {
    let first: Vec<&str> = table
        .lines()
        .take(1)
        .flat_map(|row| row.split('|'))
        .collect();
    let mut names = Vec::new();
    for (below, row) in table.lines().enumerate() {
        for (cell, column) in row.split('|').zip(&first) {
            let otherwise = [&files_in(row), &files_in(column), section].concat();
            names.extend(of_text(cell, line + below, &otherwise));
        }
    }
    names
}

/// The names of a cell or a paragraph; `otherwise` are the files of those that have none behind them.
pub fn of_text<'a>(text: &'a str, first: usize, otherwise: &[&'a str]) -> Vec<Name<'a>> {
    let mut names: Vec<Name> = Vec::new();
    let mut files = Vec::new(); // those in the parentheses at hand
    let mut waiting = 0; // from here on the names wait for a file
    let (mut line, mut before) = (first, ' ');
    for (i, part) in text.split('`').enumerate() {
        if i % 2 == 1 {
            if is_file(part) {
                files.push(part);
            } else if is_name(part) {
                let (text, files) = (part, otherwise.to_vec());
                names.push(Name { text, line, files });
            }
            continue;
        }
        for c in part.chars() {
            if c == ')' && !files.is_empty() {
                names[waiting..]
                    .iter_mut()
                    .for_each(|name| name.files.clone_from(&files));
                waiting = names.len();
            }
            if c == '(' || c == ')' {
                files.clear();
            }
            if before == '.' && c.is_whitespace() {
                waiting = names.len();
            }
            line += usize::from(c == '\n');
            before = c;
        }
    }
    names
}
