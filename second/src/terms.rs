//! Values as terms of antt, in the words that `bin/rows_header.txt` defines.

use crate::definition::{Definition, Field, File};
use crate::hold::Entry;
use crate::line::Line;
use crate::machine::Machine;
use crate::random::ListCall;
use crate::state::{Answer, State, User, MAX_ET_DATA};
use call_lists::hex;

pub fn bytes(bytes: &[u8]) -> String {
    match bytes {
        [first, rest @ ..] if rest.len() > 2 && rest.iter().all(|byte| byte == first) => {
            format!("(replicate {} {first})", bytes.len())
        }
        _ => format!("(bytes \"{}\")", hex(bytes)),
    }
}

/// One item a line, or one row of equal items.
pub fn list<T: PartialEq>(items: &[T], term: impl Fn(&T) -> String) -> String {
    let lines: String = items
        .chunk_by(|item, next| item == next)
        .map(|alike| match alike {
            [item] => format!("    {} ∷\n", term(item)),
            _ => format!("    replicate {} ({}) ++\n", alike.len(), term(&alike[0])),
        })
        .collect();
    format!("(\n{lines}    [])")
}

fn entry(entry: &Entry) -> String {
    let Entry {
        user,
        file,
        isn,
        changed,
        existed,
    } = entry;
    format!("entry {user} {file} {isn} {changed} {existed}")
}

fn field(field: &Field) -> String {
    let format = match field.format {
        b'A' => "Alphanumeric",
        b'B' => "Binary",
        b'U' => "Unpacked",
        b'P' => "Packed",
        _ => unreachable!("a kept table has known formats"),
    };
    let option = match field.option {
        b' ' => "Plain",
        b'D' => "Descriptor",
        b'U' => "Unique",
        _ => unreachable!("a kept table has known options"),
    };
    let [first, second] = field.name;
    format!("field {first} {second} {} {format} {option}", field.length)
}

fn file(file: &File) -> String {
    let used = file.fields.iter().rposition(|field| field.format != 0);
    let fields = &file.fields[..used.map_or(0, |last| last + 1)];
    let File {
        number,
        max_isn,
        count,
        ..
    } = file;
    format!("file {number} {max_isn} {count} {}", list(fields, field))
}

/// Places past the last that has anything are left to the header.
fn definition(definition: &Definition) -> String {
    let used = definition.files.iter().rposition(|file| file.number != 0);
    let files = &definition.files[..used.map_or(0, |last| last + 1)];
    format!("definition {} {}", definition.count, list(files, file))
}

fn user(user: &User) -> String {
    format!(
        "user {} {} {} {} {} {} {} {} {}",
        user.session,
        user.hold_limit,
        user.time_limit,
        user.sequence,
        user.access_only,
        user.in_transaction,
        user.begun,
        user.ready,
        user.overdue
    )
}

fn et_data(user: &User) -> String {
    format!("et_data {} {}", user.et_length, bytes(&user.et_data))
}

/// N1's mark of a file; one that no rule bounds where there is no such file.
fn mark(state: &State, file: &File) -> u16 {
    match file.number {
        number @ 1..=16 => state.last_assigned[usize::from(number) - 1],
        _ => u16::MAX,
    }
}

fn marks(state: &State, files: &[File]) -> String {
    let marks: Vec<u16> = files.iter().map(|file| mark(state, file)).collect();
    list(&marks, u16::to_string)
}

/// Every place, also those past the number of waiters.
fn line(line: &Line) -> String {
    let places = list(&line.places, u64::to_string);
    format!("(line {} {places})", line.waiting)
}

pub fn nucleus(machine: &Machine) -> String {
    let state = &machine.state;
    format!(
        "nucleus ({}) {} {} {} {} {} {} {}",
        definition(&state.definition),
        state.clock,
        state.entries,
        list(&state.users, user),
        list(&state.users, et_data),
        marks(state, &state.definition.files),
        line(&state.line),
        lent(&machine.store, &machine.queue, &machine.images)
    )
}

/// The lent store, hold queue and image buffer.
pub fn lent(store: &[u8], queue: &[Entry], images: &[u8]) -> String {
    let [store, images] = [store, images].map(bytes);
    format!("{store}\n  {}\n  {images}", list(queue, entry))
}

/// Files' numbers and ISNs of which the committed record is asked.
pub fn wanted(wanted: &[(u8, u16)]) -> String {
    list(wanted, |(file, isn)| format!("wanted {file} {isn}"))
}

/// What calls answered and what they left, but for what is free and for sizes that are too short; and parts.
pub fn outcome(answers: &[(Answer, Vec<u8>)], machine: &Machine, parts: &[Vec<u8>]) -> String {
    let state = &machine.state;
    let queue = machine.capacity as usize;
    let images = queue.saturating_mul(state.definition.greatest_record_length());
    format!(
        "outcome {} {} {} {} {} {} {} {} {} {} {}",
        list(answers, |(answer, record)| answered(answer, record)),
        state.clock,
        list(&state.users.map(seen_user), user),
        list(&state.users, |user| bytes(kept(user))),
        marks(state, state.definition.used_files()),
        line(&state.line),
        bytes(&machine.store),
        list(&seen_entries(machine), |(seen, image)| format!(
            "with_image ({}) {}",
            entry(seen),
            bytes(image)
        )),
        list(machine.queue.get(queue..).unwrap_or_default(), entry),
        bytes(machine.images.get(images..).unwrap_or_default()),
        list(parts, |part| bytes(part))
    )
}

/// What belongs to no session or to no transaction decides nothing, and is shown as 0; ET data is shown apart.
fn seen_user(user: User) -> User {
    let session = match user.session {
        true => user,
        false => User::fresh(),
    };
    User {
        in_transaction: user.in_transaction,
        begun: if user.in_transaction { user.begun } else { 0 },
        ready: user.ready,
        overdue: user.overdue,
        et_length: 0,
        et_data: User::fresh().et_data,
        ..session
    }
}

fn kept(user: &User) -> &[u8] {
    &user.et_data[..usize::from(user.et_length).min(MAX_ET_DATA)]
}

/// The entries in use, each with its image where that is not free.
fn seen_entries(machine: &Machine) -> Vec<(Entry, Vec<u8>)> {
    let definition = &machine.state.definition;
    let length = definition.greatest_record_length();
    let seen = |(place, entry): (usize, &Entry)| {
        let width = match definition.file_index(entry.file) {
            Some(file) if entry.changed && entry.existed => definition.files[file].record_length(),
            _ => 0,
        };
        let rest = machine.images.get(place * length..).unwrap_or_default();
        (*entry, rest[..width.min(rest.len())].to_vec())
    };
    let entries = machine.queue.iter().take(machine.state.entries as usize);
    entries.enumerate().map(seen).collect()
}

pub fn given(list_call: &ListCall) -> String {
    let call = &list_call.call;
    format!(
        "given {} {} {} {} {} {} {} {} {}",
        bytes(&call.command),
        call.option,
        call.user,
        call.file,
        call.isn,
        call.limit,
        call.clock,
        bytes(&list_call.format),
        bytes(&list_call.record)
    )
}

/// An answer, and the record buffer after it.
fn answered(answer: &Answer, record: &[u8]) -> String {
    let Answer {
        response,
        isn,
        quantity,
        sequence,
    } = answer;
    format!(
        "answered {response} {isn} {quantity} {sequence} {}",
        bytes(record)
    )
}
