//! The store: "files in table order, ISNs rising; each ISN has one byte, 1 for a record and any other for none, then
//! the width".

use crate::definition::{Definition, File};
use std::ops::Range;

/// The first byte of an ISN that has a record, and the one that emptying sets.
const PRESENT: u8 = 1;
const EMPTY: u8 = 0;

/// The bytes of one ISN: its first byte, then its record.
fn slot_length(file: &File) -> usize {
    1 + file.record_length()
}

fn file_size(file: &File) -> usize {
    usize::from(file.max_isn) * slot_length(file)
}

/// The bytes that the whole store needs.
pub fn store_size(definition: &Definition) -> usize {
    definition.used_files().iter().map(file_size).sum()
}

/// The place of an ISN's first byte; the ISN is within its file.
fn slot_start(definition: &Definition, file: usize, isn: u16) -> usize {
    let files_before: usize = definition.files[..file].iter().map(file_size).sum();
    files_before + (usize::from(isn) - 1) * slot_length(&definition.files[file])
}

fn record_range(definition: &Definition, file: usize, isn: u16) -> Range<usize> {
    let start = slot_start(definition, file, isn) + 1;
    start..start + definition.files[file].record_length()
}

pub fn has_record(definition: &Definition, store: &[u8], file: usize, isn: u16) -> bool {
    store[slot_start(definition, file, isn)] == PRESENT
}

/// The record bytes of an ISN, whether it has a record or not.
pub fn record<'a>(definition: &Definition, store: &'a [u8], file: usize, isn: u16) -> &'a [u8] {
    &store[record_range(definition, file, isn)]
}

/// Puts a record at an ISN.
pub fn put_record(
    definition: &Definition,
    store: &mut [u8],
    file: usize,
    isn: u16,
    content: &[u8],
) {
    store[slot_start(definition, file, isn)] = PRESENT;
    store[record_range(definition, file, isn)].copy_from_slice(content);
}

/// "Emptying sets an ISN's first byte to 0 and keeps the rest."
pub fn empty(definition: &Definition, store: &mut [u8], file: usize, isn: u16) {
    store[slot_start(definition, file, isn)] = EMPTY;
}

/// "Set-up puts 0 in every first byte of an ISN and writes nothing else lent."
pub fn empty_all(definition: &Definition, store: &mut [u8]) {
    for (index, file) in definition.used_files().iter().enumerate() {
        for isn in 1..=file.max_isn {
            empty(definition, store, index, isn);
        }
    }
}

/// Option `I`: "the lowest ISN at or above the given one that has a record".
pub fn lowest_with_record(
    definition: &Definition,
    store: &[u8],
    file: usize,
    from: u16,
) -> Option<u16> {
    (from.max(1)..=definition.files[file].max_isn)
        .find(|isn| has_record(definition, store, file, *isn))
}
