//! The listing (document 01, "Cells to prove, and a listing").

use super::{table_check, Cell, Refusal, Table};
use crate::layout::{MOST_BLOCKS, MOST_LISTED};
use std::io::Write;

/// What the lister prints for a table.
pub fn listing(bytes: &[u8]) -> Vec<u8> {
    let mut output = Vec::new();
    match checked(bytes) {
        Ok(table) => list(&table, &mut output),
        Err(refusal) => print(&mut output, format_args!("refused {}\n", refusal.number())),
    }
    output
}

fn checked(bytes: &[u8]) -> Result<Table<'_>, Refusal> {
    if bytes.len() > MOST_LISTED {
        return Err(Refusal::Buffer);
    }
    table_check(bytes, &mut [0; MOST_BLOCKS as usize])
}

fn list(table: &Table, output: &mut Vec<u8>) {
    let header = &table.header;
    print(
        output,
        format_args!(
            "fields {} key {} records {}\n",
            header.fields, header.key_fields, header.records
        ),
    );
    for (number, block) in table.used_blocks() {
        for place in 0..block.record_count().unwrap_or(0) {
            print(output, format_args!("{number}.{place}"));
            let cells = table.record(number.into(), place);
            for cell in cells.into_iter().flatten() {
                output.push(b'|');
                list_cell(table, cell, output);
            }
            output.push(b'\n');
        }
    }
}

fn list_cell(table: &Table, cell: Result<Cell, Refusal>, output: &mut Vec<u8>) {
    match cell {
        Ok(Cell::Blank) => {}
        Ok(Cell::Text(text)) => output.extend_from_slice(table.part(text)),
        Ok(Cell::Date(day)) => print(output, format_args!("{day}")),
        Ok(Cell::Short(value)) => print(output, format_args!("{value}")),
        Ok(Cell::Long(value)) => print(output, format_args!("{value}")),
        Ok(Cell::Double(value)) => print(output, format_args!("{:016x}", value.to_bits())),
        Ok(Cell::Logical(value)) => output.push(if value { b'T' } else { b'F' }),
        Err(refusal) => print(output, format_args!("!{}", refusal.number())),
    }
}

fn print(output: &mut Vec<u8>, text: std::fmt::Arguments) {
    output
        .write_fmt(text)
        .expect("a vector takes whatever is written to it");
}
