//! Faults in the field area and the names, rule 7.

use super::{Fault, File};
use crate::codes::{self, MEMO};
use crate::layout::*;
use crate::model::Table;
use crate::random::Random;

/// The faults of this file.
pub const FAULTS: &[Fault] = &[
    code,
    width,
    blob_width,
    blob_in_key,
    empty_name,
    joined_names,
    name_length,
    cut_header,
];

/// Where the parts of a good field area are.
struct Area {
    fields: usize,
    key_fields: usize,
    header_size: usize,
    stored: usize,
    names: usize,
}

fn area(table: &[u8]) -> Option<Area> {
    let header = Table::read(table).ok()?.header;
    Some(Area {
        fields: header.fields,
        key_fields: header.key_fields,
        header_size: header.header_size,
        stored: field_area(header.version),
        names: names(header.version, header.fields),
    })
}

/// Lets the record size be what the widths add up to, so that only the field itself is wrong.
fn refit_record_size(table: &mut [u8], area: &Area) {
    let stored = &table[area.stored..area.stored + 2 * area.fields];
    let size: usize = stored.chunks(2).map(|pair| usize::from(pair[1])).sum();
    put_word(table, RECORD_SIZE, size as u16);
}

fn code(table: &mut File, random: &mut Random) {
    let Some(area) = area(table) else { return };
    let known = random.pick(&codes::ALL);
    let value = random.pick(&[0, 7, 8, 0x0A, 0x0B, 0x11, 0x81, 0xFF, known]);
    table[area.stored + 2 * random.below(area.fields)] = value;
}

fn width(table: &mut File, random: &mut Random) {
    let Some(area) = area(table) else { return };
    let place = area.stored + 2 * random.below(area.fields);
    let own = table[place + 1];
    let limits = [0, 1, 2, 3, 4, 5, 7, 8, 9, 10, 11, 249, 250, 251, 255];
    let beside = random.pick(&[own.wrapping_sub(1), own.wrapping_add(1)]);
    let limit = random.pick(&limits);
    table[place + 1] = random.pick(&[limit, beside]);
    if random.percent(75) {
        refit_record_size(table, &area);
    }
}

/// A blob behind the key with a width at its limits, or one beside them.
fn blob_width(table: &mut File, random: &mut Random) {
    let Some(area) = area(table) else { return };
    if area.key_fields == area.fields {
        return;
    }
    let place = area.stored + 2 * random.within(area.key_fields..=area.fields - 1);
    table[place] = random.within(MEMO.into()..=codes::LAST_BLOB.into()) as u8;
    table[place + 1] = random.pick(&[9, 10, 11, 250, 251]);
    refit_record_size(table, &area);
}

/// A blob whose width is right, as a key field.
fn blob_in_key(table: &mut File, random: &mut Random) {
    let Some(area) = area(table) else { return };
    if area.key_fields == 0 {
        return;
    }
    let place = area.stored + 2 * random.below(area.key_fields);
    table[place] = random.within(MEMO.into()..=codes::LAST_BLOB.into()) as u8;
    table[place + 1] = table[place + 1].clamp(11, 250);
    refit_record_size(table, &area);
}

/// The start and the length of each name.
fn name_places(table: &[u8], area: &Area) -> Vec<(usize, usize)> {
    let mut start = area.names;
    let place = |_| {
        let length = table[start..]
            .iter()
            .position(|&byte| byte == 0)
            .unwrap_or(0);
        let this = (start, length);
        start += length + 1;
        this
    };
    (0..area.fields).map(place).collect()
}

fn empty_name(table: &mut File, random: &mut Random) {
    let Some(area) = area(table) else { return };
    let (start, _) = random.pick(&name_places(table, &area));
    table[start] = 0;
}

/// An ending zero overwritten, so that a name goes on in the next.
fn joined_names(table: &mut File, random: &mut Random) {
    let Some(area) = area(table) else { return };
    let (start, length) = random.pick(&name_places(table, &area));
    table[start + length] = b'x';
}

/// The last name made as long as it may be, or one longer, where the header has the room.
fn name_length(table: &mut File, random: &mut Random) {
    let Some(area) = area(table) else { return };
    let Some(&(start, _)) = name_places(table, &area).last() else {
        return;
    };
    let length = random.pick(&[MOST_NAME, MOST_NAME + 1]);
    if start + length < area.header_size {
        table[start..start + length].fill(b'x');
        table[start + length] = 0;
    }
}

/// A header that ends with the last name's zero, or just before it.
fn cut_header(table: &mut File, random: &mut Random) {
    let Some(area) = area(table) else { return };
    let Some(&(start, length)) = name_places(table, &area).last() else {
        return;
    };
    let end = start + length + 1;
    let cut = end - random.pick(&[0, 1, 1, 2, length + 1, end - LEAST_TABLE]);
    table.drain(cut..area.header_size);
    put_word(table, HEADER_SIZE, cut as u16);
}
