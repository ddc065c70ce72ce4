//! Records as ended transactions left them: what option `C` of L1 shows, and the whole record as a part.

use crate::definition::Definition;
use crate::hold::{self, Entry};
use crate::responses;
use crate::state::State;
use crate::store;

/// The record at an ISN of the file with this index: "a changed entry's image is shown, or 113 given where no record was
/// before; otherwise the store". Whose entry it is does not matter. The ISN is within its file.
pub fn record<'a>(
    definition: &Definition,
    entries: &[Entry],
    store: &'a [u8],
    images: &'a [u8],
    file: usize,
    isn: u16,
) -> Option<&'a [u8]> {
    match hold::position(entries, definition.files[file].number, isn) {
        Some(place) if entries[place].changed => entries[place]
            .existed
            .then(|| image(definition, images, file, place)),
        _ => store::has_record(definition, store, file, isn)
            .then(|| store::record(definition, store, file, isn)),
    }
}

/// The front of an entry's image, as long as its file's records are.
fn image<'a>(definition: &Definition, images: &'a [u8], file: usize, place: usize) -> &'a [u8] {
    let image = &images[hold::image_range(place, definition.greatest_record_length())];
    &image[..definition.files[file].record_length()]
}

/// "The whole record can also be had as a part, which is a piece of the image buffer or of the store, uncopied (no call;
/// no bytes where `C` gets 11, 12, 17 or 113)."
pub fn part<'a>(
    state: &State,
    capacity: u32,
    file: u8,
    isn: u16,
    store: &'a [u8],
    queue: &[Entry],
    images: &'a [u8],
) -> &'a [u8] {
    if responses::usable_rows(state, capacity, store, queue, images).is_err() {
        return &[];
    }
    let definition = &state.definition;
    let entries = &queue[..state.entries as usize];
    match definition.file_index(file) {
        Some(index) if (1..=definition.files[index].max_isn).contains(&isn) => {
            record(definition, entries, store, images, index, isn).unwrap_or_default()
        }
        _ => &[],
    }
}
