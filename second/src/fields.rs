//! Values of fields: nulls, allowed digits and signs, stored form; and the format buffer.

use crate::definition::{Field, File};

/// "Nulls: `A` blanks X'20', `B` zeros, `U` zeros X'30', `P` zero with F."
pub fn null_value(field: &Field) -> Vec<u8> {
    let length = usize::from(field.length);
    match field.format {
        b'A' => vec![b' '; length],
        b'U' => vec![b'0'; length],
        b'P' => packed_zero(length),
        _ => vec![0; length],
    }
}

fn packed_zero(length: usize) -> Vec<u8> {
    let mut value = vec![0; length];
    if let Some(last) = value.last_mut() {
        *last = 0x0F;
    }
    value
}

/// A record all of whose fields are null.
pub fn null_record(file: &File) -> Vec<u8> {
    file.used_fields().iter().flat_map(null_value).collect()
}

/// Whether every digit and sign of a value brought by a call is allowed.
pub fn is_allowed(field: &Field, value: &[u8]) -> bool {
    match field.format {
        b'U' => value.iter().all(u8::is_ascii_digit),
        b'P' => is_allowed_packed(value),
        _ => true,
    }
}

/// "Two digits a byte, the last half byte a sign"; "A, C, E and F are now positive, B and D negative" (document 02,
/// No. 2).
fn is_allowed_packed(value: &[u8]) -> bool {
    let Some((last, before)) = value.split_last() else {
        return false;
    };
    before.iter().all(|byte| byte >> 4 <= 9 && byte & 0x0F <= 9)
        && last >> 4 <= 9
        && last & 0x0F >= 0x0A
}

/// The stored form of an allowed value.
pub fn stored_form(field: &Field, value: &[u8]) -> Vec<u8> {
    match field.format {
        b'P' => stored_packed(value),
        _ => value.to_vec(),
    }
}

/// "It is stored with F or D, and a zero always with F."
fn stored_packed(value: &[u8]) -> Vec<u8> {
    let mut stored = value.to_vec();
    let Some((last, before)) = stored.split_last_mut() else {
        return stored;
    };
    let is_zero = before.iter().all(|byte| *byte == 0) && *last >> 4 == 0;
    let is_negative = matches!(*last & 0x0F, 0x0B | 0x0D);
    let sign = if is_negative && !is_zero { 0x0D } else { 0x0F };
    *last = (*last & 0xF0) | sign;
    stored
}

/// Whether a record has a value that is not in stored form. No call stores one, but a state that nobody set up may have it.
pub fn has_unstored(file: &File, content: &[u8]) -> bool {
    let is_unstored = |(index, field)| {
        let value = &content[file.field_range(index)];
        stored_form(field, value) != value
    };
    file.used_fields().iter().enumerate().any(is_unstored)
}

/// The fields that a format buffer names, by index, in its order; none where it breaks its form or names an unknown
/// field. "Names divided by commas, ended by a period, nothing after, at least one name"; "`.` alone now means no fields"
/// (document 02, No. 5).
pub fn elements(file: &File, format: &[u8]) -> Option<Vec<usize>> {
    if format == b"." {
        return Some(Vec::new());
    }
    let (end, names) = format.split_last()?;
    if *end != b'.' {
        return None;
    }
    names
        .split(|byte| *byte == b',')
        .map(|name| file.field_named(name))
        .collect()
}

/// Whether a field is named twice.
pub fn names_twice(elements: &[usize]) -> bool {
    elements
        .iter()
        .enumerate()
        .any(|(place, element)| elements[..place].contains(element))
}

/// The length of the named fields together, each as often as it is named.
pub fn named_length(file: &File, elements: &[usize]) -> usize {
    elements
        .iter()
        .map(|index| usize::from(file.fields[*index].length))
        .sum()
}

/// The values in a record buffer that is long enough, "one after another", each with the index of its field.
pub fn values<'a>(file: &File, elements: &[usize], record: &'a [u8]) -> Vec<(usize, &'a [u8])> {
    let mut at = 0;
    let mut found = Vec::new();
    for index in elements {
        let length = usize::from(file.fields[*index].length);
        found.push((*index, &record[at..at + length]));
        at += length;
    }
    found
}

/// Replaces the named fields of a record by the values in the record buffer, in stored form.
pub fn replace_named(file: &File, elements: &[usize], record: &[u8], content: &mut [u8]) {
    for (index, value) in values(file, elements, record) {
        let stored = stored_form(&file.fields[index], value);
        content[file.field_range(index)].copy_from_slice(&stored);
    }
}

/// The named fields of a record, one after another.
pub fn read_named(file: &File, elements: &[usize], content: &[u8]) -> Vec<u8> {
    elements
        .iter()
        .flat_map(|index| &content[file.field_range(*index)])
        .copied()
        .collect()
}
