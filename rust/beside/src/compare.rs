//! What a call left, in both implementations: equal but for what document 01 leaves free.

use crate::twin::{self, Given, Twin};
use second::definition::Definition;
use second::machine::Machine;
use second::state::{Answer, Call};
use towungbe::raw::{self, EtData};

/// Both implementations around one call.
pub struct Both<'a> {
    pub call: &'a Call,
    /// The second implementation before and after, what it answered, and the record buffer after.
    pub before: &'a Machine,
    pub after: &'a Machine,
    pub answer: &'a Answer,
    pub record: &'a [u8],
    /// The library before and after, and what it gave.
    pub twin_before: &'a Twin,
    pub twin: &'a Twin,
    pub given: &'a Given,
}

type Check = (fn(&Both) -> bool, &'static str);

const CHECKS: [Check; 11] = [
    (answers_equal, "the answers differ"),
    (record_buffers_equal, "the record buffers differ"),
    (guards_stand, "something behind a buffer is written"),
    (definition_stays, "the kept table is changed"),
    (states_equal, "the states differ"),
    (lines_equal, "the lines differ"),
    (others_stay, "another user is changed"),
    (stores_equal, "the stores differ"),
    (entries_equal, "the entries in use or their images differ"),
    (left_as_it_was, "more is changed than the response allows"),
    (committed_places_equal, "a committed record lies elsewhere"),
];

/// The error says what differs.
pub fn compare(both: &Both) -> Result<(), String> {
    match CHECKS.iter().find(|(holds, _)| !holds(both)) {
        Some((_, differs)) => Err(format!(
            "{differs}: {:?} answers {:?}, the second implementation {:?}",
            both.call, both.given.answer, both.answer
        )),
        None => Ok(()),
    }
}

fn answers_equal(both: &Both) -> bool {
    both.given.answer == *both.answer
}

fn record_buffers_equal(both: &Both) -> bool {
    both.given.record.items() == both.record
}

fn guards_stand(both: &Both) -> bool {
    both.given.record.guards_stand() && both.twin.guards_stand()
}

fn definition_stays(both: &Both) -> bool {
    let (before, after) = (&both.twin_before.state, &both.twin.state);
    before.count == after.count && before.files == after.files
}

/// Clock, count of entries, users with their ET data, N1's marks.
fn states_equal(both: &Both) -> bool {
    let expected = twin::state(&both.after.state);
    let found = &both.twin.state;
    let users = |state: &raw::State| state.users.map(seen);
    expected.clock == found.clock
        && expected.entries == found.entries
        && users(&expected) == users(found)
        && expected
            .et_data
            .iter()
            .map(kept)
            .eq(found.et_data.iter().map(kept))
        && marks_equal(both, &expected)
}

/// What belongs to no session or to no transaction decides nothing, but that nobody without one is ready.
fn seen(user: raw::User) -> raw::User {
    let mut seen = match user.session {
        true => user,
        false => raw::User::default(),
    };
    seen.transaction = match user.transaction.active {
        true => user.transaction,
        false => raw::Transaction {
            ready: user.transaction.ready,
            ..raw::Transaction::default()
        },
    };
    seen.overdue = user.overdue;
    seen
}

/// ET data up to its length; a length that is too great is of a state that is left as it was.
fn kept(et_data: &EtData) -> (u8, &[u8]) {
    let length = usize::from(et_data.length).min(et_data.bytes.len());
    (et_data.length, &et_data.bytes[..length])
}

/// N1's marks of files in use; a place without a file keeps what it has.
fn marks_equal(both: &Both, expected: &raw::State) -> bool {
    let used = both.after.state.definition.used_files().len();
    let found = &both.twin.state.last_assigned;
    expected.last_assigned[..used] == found[..used]
        && both.twin_before.state.last_assigned[used..] == found[used..]
}

/// Who waits, and every place, also those past them.
fn lines_equal(both: &Both) -> bool {
    twin::line(&both.after.state.line) == both.twin.state.wait_queue
}

/// Users whom neither the call nor the clock is about are as they were, in every byte; but a hold that is handed over may open
/// a transaction.
fn others_stay(both: &Both) -> bool {
    let clock = both.before.state.clock.max(both.call.clock);
    let (before, after) = (&both.twin_before.state, &both.twin.state);
    (0..before.users.len()).all(|place| {
        let is_caller = place + 1 == usize::from(both.call.user);
        let mut expected = before.users[place];
        if is_handed_over(both, place as u8 + 1) {
            expected.transaction = after.users[place].transaction;
        }
        is_caller
            || both.before.state.users[place].is_late(clock)
            || (expected, before.et_data[place]) == (after.users[place], after.et_data[place])
    })
}

/// Whether a user waited before the call and holds what he waited for after it.
fn is_handed_over(both: &Both, user: u8) -> bool {
    let mut waiters = both.before.state.line.waiters();
    let waited = waiters.find(|waiter| waiter.user == user);
    waited.is_some_and(|waiter| {
        let entries = both.after.queue.iter();
        let mut used = entries.take(both.after.state.entries as usize);
        used.any(|entry| entry.user == user && waiter.is_for(entry.file, entry.isn))
    })
}

/// Every byte, also of empty ISNs and past the size.
fn stores_equal(both: &Both) -> bool {
    both.twin.store.items() == both.after.store
}

/// The entries in use, each with its image where that is not free.
fn entries_equal(both: &Both) -> bool {
    let count = both.after.state.entries as usize;
    let (Some(expected), Some(found)) = (
        both.after.queue.get(..count),
        both.twin.queue.items().get(..count),
    ) else {
        return true;
    };
    let images = |images| (0..count).map(move |place| image(both.after, images, place));
    expected.iter().map(twin::entry).eq(found.iter().copied())
        && images(&both.after.images).eq(images(both.twin.images.items()))
}

/// The bytes of an entry's image that are not free: of a changed entry with a record before, up to its file's width.
fn image<'a>(machine: &Machine, images: &'a [u8], place: usize) -> &'a [u8] {
    let definition = &machine.state.definition;
    let entry = &machine.queue[place];
    let width = match definition.file_index(entry.file) {
        Some(file) if entry.changed && entry.existed => definition.files[file].record_length(),
        _ => 0,
    };
    let start = place * definition.greatest_record_length();
    images.get(start..start + width).unwrap_or_default()
}

/// What no call touches: entries and images past the sizes; of a call that is refused before the clock all; of another
/// refused call, where nobody is backed out, the queue and the images.
fn left_as_it_was(both: &Both) -> bool {
    let (before, after) = (both.twin_before, both.twin);
    let refused_whole = matches!(both.answer.response, 11 | 12 | 22 | 72);
    let refused = !matches!(both.answer.response, 0 | 9) && !anybody_late(both);
    let lent_stays = before.queue == after.queue && before.images == after.images;
    (!refused_whole || before.state == after.state)
        && (!(refused_whole || refused) || lent_stays)
        && past_sizes_stay(before, after, &both.before.state.definition)
}

fn anybody_late(both: &Both) -> bool {
    let clock = both.before.state.clock.max(both.call.clock);
    both.before
        .state
        .users
        .iter()
        .any(|user| user.is_late(clock))
}

fn past_sizes_stay(before: &Twin, after: &Twin, definition: &Definition) -> bool {
    let images = before
        .capacity
        .saturating_mul(definition.greatest_record_length());
    before.queue.items().get(before.capacity..) == after.queue.items().get(before.capacity..)
        && before.images.items().get(images..) == after.images.items().get(images..)
}

/// Where committed records lie: of the call's ISN, of the one answered, and of the first that are changed or held.
fn committed_places_equal(both: &Both) -> bool {
    let entries = both.after.queue.iter();
    let used = entries.take(both.after.state.entries as usize);
    let places = |changed| {
        let entries = used.clone().filter(move |entry| entry.changed == changed);
        entries.map(|entry| (entry.file, entry.isn))
    };
    let of_call = [both.call.isn, both.answer.isn].map(|isn| (both.call.file, isn));
    let mut asked = of_call.into_iter();
    let mut held = places(true).take(2).chain(places(false).take(1));
    let equal = |(file, isn): (u8, u16)| {
        twin::committed_place(both.after, file, isn) == both.twin.committed_place(file, isn)
    };
    asked.all(equal) && held.all(equal)
}
