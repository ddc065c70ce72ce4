//! The hold queue, "oldest first, and removal closes the gap", and its before-images, "one image an entry, moving with
//! it".

use std::ops::Range;

/// A hold queue element.
#[derive(Clone, Copy, Debug, Default, PartialEq, Eq)]
pub struct Entry {
    pub user: u8,
    /// The file's number.
    pub file: u8,
    pub isn: u16,
    pub changed: bool,
    /// Whether a record was there before.
    pub existed: bool,
}

/// The place of the entry that holds an ISN.
pub fn position(entries: &[Entry], file: u8, isn: u16) -> Option<usize> {
    entries
        .iter()
        .position(|entry| entry.file == file && entry.isn == isn)
}

/// The user who holds an ISN.
pub fn holder(entries: &[Entry], file: u8, isn: u16) -> Option<u8> {
    position(entries, file, isn).map(|place| entries[place].user)
}

/// How many entries a user has, in all files.
pub fn count_of(entries: &[Entry], user: u8) -> usize {
    entries.iter().filter(|entry| entry.user == user).count()
}

/// The place of an entry's image, which does not go by the capacity.
pub fn image_range(place: usize, image_length: usize) -> Range<usize> {
    place * image_length..(place + 1) * image_length
}

/// Removes the entries that `goes` names, each later entry and its whole image moving up; answers them, in order. Entries
/// and images past the new count stay as they are.
pub fn remove_where(
    queue: &mut [Entry],
    images: &mut [u8],
    image_length: usize,
    count: usize,
    goes: impl Fn(&Entry) -> bool,
) -> Vec<Entry> {
    let mut removed = Vec::new();
    let mut kept = 0;
    for place in 0..count {
        if goes(&queue[place]) {
            removed.push(queue[place]);
            continue;
        }
        if kept < place {
            queue[kept] = queue[place];
            images.copy_within(image_range(place, image_length), kept * image_length);
        }
        kept += 1;
    }
    removed
}
