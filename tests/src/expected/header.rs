//! The program header_test: rules 1 to 7, the header's numbers and the fields.

use super::lines::{Lent, Line, Program, Said};
use super::show::refused;
use super::table::TABLE;
use crate::layout::{field_area, names, MOST_FIELDS};
use crate::model::{Kind, Table};

/// The program keeps nothing.
pub struct HeaderTest;

impl Program for HeaderTest {
    fn lent(&self) -> Lent {
        Lent::new(0, TABLE)
    }

    /// `!` asks for the header's numbers, `?` for a field.
    fn letter(&mut self, letter: u8, line: &mut Line) -> Said {
        if let Some(said) = line.note(letter) {
            return said;
        }
        let table = Table::read(line.table());
        let shown = match (letter, table) {
            (b'!', Ok(table)) => numbers(&table),
            (b'!', Err(refusal)) => format!(" {}", refusal.number()),
            (b'?', Ok(table)) => field(&table, line.number.into()),
            (b'?', Err(refusal)) => format!(" | {}", refused(refusal)),
            _ => String::new(),
        };
        Said::Shown(shown.into())
    }

    /// The header's numbers and each field, with the number before the first and that behind the last.
    fn end_of_case(&mut self, line: &mut Line) -> Vec<u8> {
        let shown = match Table::read(line.table()) {
            Err(refusal) => format!(" {}", refusal.number()),
            Ok(table) => (0..=table.header.fields + 1).fold(numbers(&table), |shown, number| {
                shown + &field(&table, number)
            }),
        };
        shown.into()
    }
}

/// The numbers of an accepted header that are not 0, behind the 0 of its acceptance.
fn numbers(table: &Table) -> String {
    let header = &table.header;
    let widths = table.fields().map(|field| field.width).sum();
    let numbers = [
        ("version", header.version.into()),
        ("header", header.header_size),
        ("block", header.block_size),
        ("blocks", header.blocks.into()),
        ("size", header.record_size),
        ("records", header.records as usize),
        ("first", header.first.into()),
        ("last", header.last.into()),
        ("free", header.first_free.into()),
        ("fields", header.fields),
        ("keys", header.key_fields),
        ("area", field_area(header.version)),
        ("names", names(header.version, header.fields)),
        ("key", table.key_length()),
        (
            "offset255",
            if header.fields == MOST_FIELDS {
                widths
            } else {
                0
            },
        ),
    ];
    let shown = numbers.iter().filter(|(_, number)| *number != 0);
    shown.fold(" 0".to_string(), |shown, (word, number)| {
        format!("{shown} {word} {number}")
    })
}

/// The field of a number, a dash where there is none.
fn field(table: &Table, number: usize) -> String {
    match table.field(number) {
        Ok(placed) => {
            let kind = kind_word(placed.field.kind);
            format!(" | {kind} {} at {}", placed.field.width, placed.offset)
        }
        Err(_) => " | -".to_string(),
    }
}

fn kind_word(kind: Kind) -> &'static str {
    match kind {
        Kind::Text => "text",
        Kind::Date => "date",
        Kind::Short => "short",
        Kind::Long => "long",
        Kind::Currency | Kind::Number => "number",
        Kind::Logical => "logical",
        Kind::Blob => "blob",
    }
}

#[cfg(test)]
mod tests {
    use super::*;
    use crate::expected::lines::run;

    #[test]
    fn a_header_and_its_fields() {
        let input = "> 0=0500 2=0001 4=00 5=01 6=07 c=0600 e=0400 10=0300 21=02 23=01 39=09\n\
                     > 78=01030302 d7'Part' dc'Qty'\n\
                     a:\n\
                     b: 2? 3? 0=06? !\n";
        let printed = "a: 0 version 9 header 256 block 1024 blocks 6 size 5 records 7 first 4 last 3 \
                       fields 2 keys 1 area 120 names 215 key 3 | - | text 3 at 0 | short 2 at 3 | -\n\
                       b: | short 2 at 3 | - | !7 7\n";
        let run = run(HeaderTest, input.as_bytes());
        assert_eq!(String::from_utf8_lossy(&run), printed);
    }
}
