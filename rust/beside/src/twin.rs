//! A nucleus of the second implementation once more, as the static library has it, with guards behind every buffer.

use second::definition::{Definition, Field, File};
use second::hold;
use second::line::Line;
use second::machine::Machine;
use second::random::ListCall;
use second::state::{Answer, State, User};
use towungbe::raw::{self, Block, Entry, Lent};

/// What stands behind each lent buffer: nothing may write there.
const GUARDS: usize = 16;
const GUARD: u8 = 0x5A;
const GUARD_ENTRY: Entry = Entry {
    user: GUARD,
    file: GUARD,
    isn: 0x5A5A,
    changed: true,
    existed: false,
};

/// A buffer with guards behind it.
#[derive(Clone, Debug, PartialEq, Eq)]
pub struct Guarded<T> {
    items: Vec<T>,
    guard: T,
}

impl<T: Copy + PartialEq> Guarded<T> {
    fn new(items: Vec<T>, guard: T) -> Guarded<T> {
        let mut guarded = Guarded { items, guard };
        guarded.items.extend([guard; GUARDS]);
        guarded
    }

    pub fn lent(&mut self) -> &mut [T] {
        let length = self.items.len() - GUARDS;
        &mut self.items[..length]
    }

    pub fn items(&self) -> &[T] {
        &self.items[..self.items.len() - GUARDS]
    }

    pub fn guards_stand(&self) -> bool {
        let guards = &self.items[self.items.len() - GUARDS..];
        guards.iter().all(|guard| *guard == self.guard)
    }
}

#[derive(Clone, Debug)]
pub struct Twin {
    pub state: raw::State,
    pub capacity: usize,
    pub store: Guarded<u8>,
    pub queue: Guarded<Entry>,
    pub images: Guarded<u8>,
}

/// What the library gave for a call.
#[derive(Clone, Debug)]
pub struct Given {
    pub answer: Answer,
    pub record: Guarded<u8>,
}

impl Twin {
    /// The same state and buffers.
    pub fn of(machine: &Machine) -> Twin {
        Twin {
            state: state(&machine.state),
            capacity: wide(machine.capacity),
            store: Guarded::new(machine.store.clone(), GUARD),
            queue: Guarded::new(machine.queue.iter().map(entry).collect(), GUARD_ENTRY),
            images: Guarded::new(machine.images.clone(), GUARD),
        }
    }

    /// The same buffers, set up by the library; gives the response.
    pub fn set_up(&mut self, table: &[u8]) -> u32 {
        let (state, capacity) = (&mut self.state, self.capacity);
        let lent = Lent {
            store: self.store.lent(),
            queue: self.queue.lent(),
            images: self.images.lent(),
        };
        raw::set_up(state, capacity, table, lent)
    }

    /// Makes a call. The error says what no call may do to its block.
    pub fn call(&mut self, list_call: &ListCall) -> Result<Given, String> {
        let brought = block(list_call);
        let mut block = brought;
        let mut record = Guarded::new(list_call.record.clone(), GUARD);
        let lent = Lent {
            store: self.store.lent(),
            queue: self.queue.lent(),
            images: self.images.lent(),
        };
        let format = &list_call.format;
        let returned = raw::call(
            &mut self.state,
            &mut block,
            self.capacity,
            lent,
            format,
            record.lent(),
        );
        let answer = Answer {
            response: block.response,
            isn: block.answered_isn,
            quantity: block.quantity,
            sequence: block.sequence,
        };
        if returned != u32::from(answer.response) {
            return Err(format!("{returned} is returned with {answer:?}"));
        }
        match with_answer(brought, &answer) == block {
            true => Ok(Given { answer, record }),
            false => Err(format!(
                "arguments are changed: {brought:?}, then {block:?}"
            )),
        }
    }

    /// Where the committed record of an ISN lies.
    pub fn committed_place(&self, file: u8, isn: u16) -> raw::Place {
        raw::committed_place(
            &self.state,
            self.capacity,
            file,
            isn,
            self.store.items(),
            self.queue.items(),
            self.images.items(),
        )
    }

    pub fn guards_stand(&self) -> bool {
        self.store.guards_stand() && self.queue.guards_stand() && self.images.guards_stand()
    }
}

/// A block with strange answers in it, which a call must overwrite.
fn block(list_call: &ListCall) -> Block {
    let call = &list_call.call;
    Block {
        command: call.command,
        option: call.option,
        user: call.user,
        file: call.file,
        isn: call.isn,
        limit: call.limit,
        clock: call.clock,
        response: 0xEEEE,
        answered_isn: 0xEEEE,
        sequence: 0xEEEE_EEEE,
        quantity: 0xEEEE_EEEE,
    }
}

fn with_answer(block: Block, answer: &Answer) -> Block {
    Block {
        response: answer.response,
        answered_isn: answer.isn,
        sequence: answer.sequence,
        quantity: answer.quantity,
        ..block
    }
}

/// The greatest number of 32 bits as one that has more bits, of which the lower would be a good number.
fn wide(number: u32) -> usize {
    match number {
        u32::MAX => (1 << 32) + 1,
        _ => number as usize,
    }
}

/// Where the second implementation's committed record of an ISN lies.
pub fn committed_place(machine: &Machine, file: u8, isn: u16) -> raw::Place {
    let record = machine.committed(file, isn);
    if record.is_empty() {
        return raw::Place::default();
    }
    let from = |buffer: &[u8]| (record.as_ptr() as usize).wrapping_sub(buffer.as_ptr() as usize);
    let imaged = from(&machine.images) < machine.images.len();
    let start = match imaged {
        true => from(&machine.images),
        false => from(&machine.store),
    };
    raw::Place {
        start,
        length: record.len(),
        imaged,
    }
}

pub fn entry(entry: &hold::Entry) -> Entry {
    Entry {
        user: entry.user,
        file: entry.file,
        isn: entry.isn,
        changed: entry.changed,
        existed: entry.existed,
    }
}

pub fn state(state: &State) -> raw::State {
    let mut raw = raw::State {
        count: state.definition.count,
        clock: state.clock,
        entries: wide(state.entries),
        wait_queue: line(&state.line),
        ..raw::State::default()
    };
    fill_files(&mut raw, &state.definition);
    for (place, user) in state.users.iter().enumerate() {
        raw.users[place] = self::user(user);
        raw.et_data[place].length = user.et_length;
        raw.et_data[place].bytes = user.et_data;
    }
    for (place, file) in state.definition.files.iter().enumerate() {
        raw.last_assigned[place] = mark(state, file);
    }
    raw
}

/// Both keep a waiter as the same number.
pub fn line(line: &Line) -> raw::WaitQueue {
    raw::WaitQueue {
        places: line.places,
        waiting: line.waiting,
    }
}

fn fill_files(raw: &mut raw::State, definition: &Definition) {
    for (raw, file) in raw.files.iter_mut().zip(&definition.files) {
        raw.number = file.number;
        raw.count = file.count;
        raw.max_isn = file.max_isn;
        for (raw, field) in raw.fields.iter_mut().zip(&file.fields) {
            *raw = self::field(field);
        }
    }
}

/// The library keeps formats and options by number; a place without a field has 0.
fn field(field: &Field) -> raw::Field {
    let number = |codes: &[u8], code: u8| codes.iter().position(|known| *known == code);
    raw::Field {
        first: field.name[0],
        second: field.name[1],
        length: field.length,
        format: number(b"ABUP", field.format).unwrap_or(0) as u8,
        option: number(b" DU", field.option).unwrap_or(0) as u8,
    }
}

pub fn user(user: &User) -> raw::User {
    raw::User {
        sequence: user.sequence,
        transaction: raw::Transaction {
            begun: user.begun,
            active: user.in_transaction,
            ready: user.ready,
        },
        hold_limit: user.hold_limit,
        time_limit: user.time_limit,
        session: user.session,
        access_only: user.access_only,
        overdue: user.overdue,
    }
}

/// N1's mark: the second implementation keeps it by file number, the library by place. Where there is no such file no
/// rule bounds it.
fn mark(state: &State, file: &File) -> u16 {
    match file.number {
        number @ 1..=16 => state.last_assigned[usize::from(number) - 1],
        _ => u16::MAX,
    }
}

#[cfg(test)]
mod tests {
    use super::*;

    #[test]
    fn a_write_behind_a_buffer_is_seen() {
        let mut guarded = Guarded::new(vec![1, 2, 3], GUARD);
        guarded.lent()[2] = 4;
        assert!(guarded.guards_stand());
        assert_eq!(guarded.items(), [1, 2, 4]);
        for place in [3, 3 + GUARDS - 1] {
            let mut written = guarded.clone();
            written.items[place] = 0;
            assert!(!written.guards_stand(), "{place}");
        }
    }
}
