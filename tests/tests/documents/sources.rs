//! What the crates declare, by the layout that `rt fmt` gives a source.

use std::fs;
use std::path::{Path, PathBuf};

/// What may stand before a declaration, and the words with which one begins.
const MARKS: [&str; 5] = ["pub", "abbrev", "unfoldable", "extern", "\"C\""];
const KINDS: [&str; 8] = [
    "fn", "struct", "enum", "const", "mod", "impl", "record", "data",
];

/// The library's directory.
pub fn root() -> PathBuf {
    Path::new(env!("CARGO_MANIFEST_DIR")).join("..")
}

pub fn read(path: &str) -> String {
    fs::read_to_string(root().join(path)).unwrap_or_else(|error| panic!("{path}: {error}"))
}

/// The crates of crates.txt; a static library has that word behind its name.
pub fn crates() -> Vec<String> {
    let lines = read("crates.txt");
    let named = lines.lines().filter(|line| !line.starts_with('#'));
    named
        .filter_map(|line| {
            Some(
                line.split_once(':')?
                    .0
                    .trim_end_matches(" staticlib")
                    .to_string(),
            )
        })
        .collect()
}

/// Every source of a crate, one after another.
pub fn source_of(name: &str) -> String {
    let folder = fs::read_dir(root().join("crates").join(name).join("src")).expect("a crate");
    let paths = folder.map(|entry| entry.expect("a file").path());
    paths
        .map(|path| fs::read_to_string(path).expect("a source"))
        .collect()
}

/// What a line declares: `fn name`, `record Name`, `name : type`, `Name = 1`, whatever marks stand before it.
pub fn declaration(line: &str) -> Option<&str> {
    let mut words = line
        .split_whitespace()
        .skip_while(|word| MARKS.contains(word));
    let (first, second) = (words.next()?, words.next()?);
    if KINDS.contains(&bare(first)) {
        return Some(bare(second));
    }
    let is_variant = second == "=" && first.starts_with(char::is_uppercase);
    (second == ":" || is_variant).then_some(first)
}

/// A word without the punctuation behind it.
fn bare(word: &str) -> &str {
    word.split(['(', '<', ':', ',', ';', '{'])
        .next()
        .unwrap_or(word)
}

/// Whether a file under crates/ declares a name: `name`, `Owner.member`, `Owner::member`; `crate::name` and
/// `module::name` where the file is of that crate or that module. A folder has the edits that stand in it.
pub fn declares(file: &str, name: &str) -> bool {
    let path = root().join("crates").join(file);
    if path.is_dir() {
        return path.join(format!("{name}.edit")).is_file();
    }
    let source = fs::read_to_string(&path).unwrap_or_default();
    let mut owners: Vec<&str> = name.split("::").flat_map(|part| part.split('.')).collect();
    let item = owners.pop().unwrap_or(name);
    let module = path.file_stem().unwrap_or_default();
    owners.retain(|owner| module != *owner && file.split('/').next() != Some(owner));
    match owners[..] {
        [] => source.lines().any(|line| declaration(line) == Some(item)),
        [owner] => members(&source, owner)
            .iter()
            .any(|line| is_member(line, item)),
        _ => false,
    }
}

/// The lines one step inside what declares an owner: fields, constructors, the functions of an `impl`.
fn members<'a>(source: &'a str, owner: &str) -> Vec<&'a str> {
    let indent = |line: &str| line.len() - line.trim_start().len();
    let lines: Vec<&str> = source
        .lines()
        .filter(|line| !line.trim().is_empty())
        .collect();
    let mut found = Vec::new();
    for (i, line) in lines.iter().enumerate() {
        if declaration(line) == Some(owner) {
            let inside = lines[i + 1..]
                .iter()
                .take_while(|below| indent(below) > indent(line));
            let step = inside.clone().map(|below| indent(below)).min();
            found.extend(inside.filter(|below| Some(indent(below)) == step));
        }
    }
    found
}

fn is_member(line: &str, name: &str) -> bool {
    let first = line.split_whitespace().find(|word| !MARKS.contains(word));
    declaration(line) == Some(name) || first.is_some_and(|word| bare(word) == name)
}

/// A public function from its name to its body, contract and all; none where no crate hands it out.
pub fn head_of(call: &str) -> Option<String> {
    let (owner, name) = call.rsplit_once("::")?;
    let (source, step) = if crates().iter().any(|known| known == owner) {
        hands_out(owner, name).then(|| (source_of(owner), ""))?
    } else {
        let all: String = crates().iter().map(|each| source_of(each)).collect();
        let forms = [
            format!("\nimpl {owner} {{"),
            format!("\nimpl<'a> {owner}<'a> {{"),
        ];
        let (_, behind) = forms.iter().find_map(|form| all.split_once(form))?;
        let (functions, _) = behind.split_once("\n}")?;
        (functions.to_string(), "    ")
    };
    let start = format!("{step}pub ");
    let is_head = |line: &&str| line.starts_with(&start) && declares_function(line, name);
    let at = source.find(source.lines().find(is_head)?)?;
    source[at..].split("{\n").next().map(str::to_string)
}

/// Whether a function is in a crate's root, or named there for its users.
fn hands_out(owner: &str, name: &str) -> bool {
    let lib = read(&format!("crates/{owner}/src/lib.rt"));
    lib.lines().any(|line| {
        let used = line.strip_prefix("pub use ").unwrap_or_default();
        let mut names = used.split(|c: char| !(c.is_alphanumeric() || c == '_'));
        declares_function(line, name) || names.any(|each| each == name)
    })
}

/// Whether a line is the first of a function of this name.
fn declares_function(line: &str, name: &str) -> bool {
    line.contains("fn ") && declaration(line) == Some(name)
}
