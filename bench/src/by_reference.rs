//! The checks of every call in Rust, by reference: of the library's own state and buffers, in the library's way.

use towungbe::raw::{Entry, Field, File, State, ET_DATA, FIELDS, FILES, MAX_CAPACITY, USERS};
use towungbe::{Buffers, Command};

/// 12, 11 or 22, the first that applies; 0 where none does.
pub fn refusal(state: &State, capacity: usize, buffers: &Buffers, command: [u8; 2]) -> u16 {
    if !table_valid(state) {
        12
    } else if too_short(state, capacity, buffers) {
        11
    } else if !well_made(state, capacity, &buffers.queue) {
        12
    } else if !Command::ALL.iter().any(|known| known.code() == command) {
        22
    } else {
        0
    }
}

fn table_valid(state: &State) -> bool {
    (1..=FILES).contains(&usize::from(state.count))
        && files(state).iter().all(file_valid)
        && no_double(files(state), |file| file.number)
}

fn files(state: &State) -> &[File] {
    &state.files[..usize::from(state.count)]
}

fn fields(file: &File) -> &[Field] {
    &file.fields[..usize::from(file.count)]
}

fn file_valid(file: &File) -> bool {
    (1..=16).contains(&file.number)
        && (1..=4095).contains(&file.max_isn)
        && (1..=FIELDS).contains(&usize::from(file.count))
        && fields(file).iter().all(field_valid)
        && no_double(fields(file), |field| [field.first, field.second])
        && width(file) <= 512
}

fn field_valid(field: &Field) -> bool {
    const GREATEST: [u8; 4] = [253, 126, 29, 15];
    let greatest = GREATEST.get(usize::from(field.format));
    field.first.is_ascii_uppercase()
        && (field.second.is_ascii_uppercase() || field.second.is_ascii_digit())
        && greatest.is_some_and(|greatest| (1..=*greatest).contains(&field.length))
        && field.option <= 2
}

fn no_double<T, K: PartialEq>(items: &[T], key: impl Fn(&T) -> K) -> bool {
    let among = |before: &[T], item| before.iter().any(|earlier| key(earlier) == key(item));
    let mut places = items.iter().enumerate();
    places.all(|(place, item)| !among(&items[..place], item))
}

fn width(file: &File) -> usize {
    let lengths = fields(file).iter().map(|field| usize::from(field.length));
    lengths.sum()
}

fn too_short(state: &State, capacity: usize, buffers: &Buffers) -> bool {
    let size = |file: &File| usize::from(file.max_isn) * (1 + width(file));
    let store: usize = files(state).iter().map(size).sum();
    let image = files(state).iter().map(width).max().unwrap_or(0);
    !(1..=MAX_CAPACITY).contains(&capacity)
        || buffers.queue.len() < capacity
        || buffers.store.len() < store
        || buffers.images.len() < capacity * image
}

fn well_made(state: &State, capacity: usize, queue: &[Entry]) -> bool {
    let mut marks = files(state).iter().zip(&state.last_assigned);
    state.entries <= capacity
        && no_entry_twice(&queue[..state.entries])
        && entries_made(state, &queue[..state.entries])
        && state.users.iter().all(|user| {
            let transaction = user.transaction;
            match transaction.active {
                true => user.session && transaction.begun <= state.clock,
                false => !transaction.ready,
            }
        })
        && marks.all(|(file, mark)| *mark <= file.max_isn)
        && state
            .et_data
            .iter()
            .all(|data| usize::from(data.length) <= ET_DATA)
        && line_made(state, &queue[..state.entries])
}

/// The highest ISN by file number is noted first, so that each entry is judged by one look.
fn entries_made(state: &State, entries: &[Entry]) -> bool {
    let mut highest = [0; FILES + 1];
    for file in files(state) {
        highest[usize::from(file.number)] = file.max_isn;
    }
    entries.iter().all(|entry| {
        let max_isn = highest.get(usize::from(entry.file)).copied().unwrap_or(0);
        (1..=max_isn).contains(&entry.isn)
            && (1..=USERS).contains(&usize::from(entry.user))
            && state.users[usize::from(entry.user) - 1].transaction.active
    })
}

/// Each who waits has a session, is there once, and another holds what he waits for.
fn line_made(state: &State, entries: &[Entry]) -> bool {
    let mut seen = 0u64;
    state.wait_queue.waiting <= USERS
        && state.wait_queue.waiters().all(|waiter| {
            let another_holds = |entry: &Entry| {
                (entry.file, entry.isn) == (waiter.file, waiter.isn) && entry.user != waiter.user
            };
            let user = usize::from(waiter.user);
            let is_user = (1..=USERS).contains(&user);
            let is_first = is_user && seen >> user & 1 == 0;
            seen |= u64::from(is_user) << (user % 64);
            is_first && state.users[user - 1].session && entries.iter().any(another_holds)
        })
}

/// A table of bits, which some entries share, says where it is worth looking.
fn no_entry_twice(entries: &[Entry]) -> bool {
    let mut table = [0u64; 64];
    entries.iter().enumerate().all(|(place, entry)| {
        let key = (usize::from(entry.file) * 259 + usize::from(entry.isn)) % 4096;
        let seen = table[key / 64] >> (key % 64) & 1 == 1;
        table[key / 64] |= 1 << (key % 64);
        let same = |other: &Entry| (other.file, other.isn) == (entry.file, entry.isn);
        !seen || !entries[..place].iter().any(same)
    })
}
