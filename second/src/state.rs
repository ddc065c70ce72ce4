//! What the nucleus keeps between calls, a call and its answer, and when a state is well made.

use crate::definition::{self, Definition, MAX_FILES};
use crate::hold::{self, Entry};
use crate::line::{Line, Waiter};
use crate::store;

pub const MAX_USERS: usize = 32;
pub const MAX_CAPACITY: u32 = 256;
pub const MAX_ET_DATA: usize = 64;

/// The table of commands; the place of a code, from 1, is the kind byte of the house call list.
pub const COMMANDS: [(Command, [u8; 2]); 13] = [
    (Command::Hi, *b"HI"),
    (Command::Ri, *b"RI"),
    (Command::L1, *b"L1"),
    (Command::L4, *b"L4"),
    (Command::A1, *b"A1"),
    (Command::E1, *b"E1"),
    (Command::N1, *b"N1"),
    (Command::N2, *b"N2"),
    (Command::Et, *b"ET"),
    (Command::Bt, *b"BT"),
    (Command::Re, *b"RE"),
    (Command::Op, *b"OP"),
    (Command::Cl, *b"CL"),
];

/// The commands that came later, which have no kind byte.
pub const LATER_COMMANDS: [(Command, [u8; 2]); 1] = [(Command::Pe, *b"PE")];

#[derive(Clone, Copy, Debug, PartialEq, Eq)]
pub enum Command {
    Hi,
    Ri,
    L1,
    L4,
    A1,
    E1,
    N1,
    N2,
    Et,
    Bt,
    Re,
    Op,
    Cl,
    Pe,
}

/// The codes of all commands, in the order of both tables.
pub fn codes() -> Vec<[u8; 2]> {
    let tables = COMMANDS.iter().chain(&LATER_COMMANDS);
    tables.map(|(_, code)| *code).collect()
}

impl Command {
    pub fn from_code(code: [u8; 2]) -> Option<Command> {
        COMMANDS
            .iter()
            .chain(&LATER_COMMANDS)
            .find(|(_, known)| *known == code)
            .map(|(command, _)| *command)
    }

    /// Blank is good for every command; `I`, `H`, `A`, `C` and `W` where the papers name them.
    pub fn has_option(self, option: u8) -> bool {
        match option {
            b' ' => true,
            b'I' => matches!(self, Command::L1 | Command::L4),
            b'H' => matches!(self, Command::A1 | Command::E1),
            b'A' => self == Command::Op,
            b'C' => self == Command::L1,
            b'W' => matches!(self, Command::Hi | Command::L4),
            _ => false,
        }
    }
}

/// A call's arguments but for its two buffers.
#[derive(Clone, Copy, Debug, PartialEq, Eq)]
pub struct Call {
    pub command: [u8; 2],
    pub option: u8,
    pub user: u8,
    pub file: u8,
    pub isn: u16,
    pub limit: u16,
    pub clock: u32,
}

#[derive(Clone, Copy, Debug, Default, PartialEq, Eq)]
pub struct Answer {
    pub response: u16,
    pub isn: u16,
    pub quantity: usize,
    pub sequence: u32,
}

impl Answer {
    /// Every row of the response table returns 0, 0, 0.
    pub fn refused(response: u16) -> Answer {
        Answer {
            response,
            ..Answer::default()
        }
    }

    pub fn with_isn(isn: u16) -> Answer {
        Answer {
            isn,
            ..Answer::default()
        }
    }
}

/// A user: his session, his transaction, his mark and his ET data. What belongs to an ended session or transaction
/// keeps its last values.
#[derive(Clone, Copy, Debug, PartialEq, Eq)]
pub struct User {
    pub session: bool,
    pub hold_limit: u16,
    pub time_limit: u16,
    pub sequence: u32,
    pub access_only: bool,
    pub in_transaction: bool,
    /// The clock at which the transaction began.
    pub begun: u32,
    /// PE set the transaction ready.
    pub ready: bool,
    pub overdue: bool,
    pub et_length: u8,
    pub et_data: [u8; MAX_ET_DATA],
}

impl User {
    pub const DEFAULT_HOLD_LIMIT: u16 = 64;
    pub const DEFAULT_TIME_LIMIT: u16 = 900;

    /// A user of a fresh nucleus.
    pub fn fresh() -> User {
        User {
            session: false,
            hold_limit: 0,
            time_limit: 0,
            sequence: 0,
            access_only: false,
            in_transaction: false,
            begun: 0,
            ready: false,
            overdue: false,
            et_length: 0,
            et_data: [0; MAX_ET_DATA],
        }
    }

    /// "Hold limit 64, time limit 900, sequence 0", and not access-only.
    pub fn open_session(&mut self) {
        self.session = true;
        self.hold_limit = User::DEFAULT_HOLD_LIMIT;
        self.time_limit = User::DEFAULT_TIME_LIMIT;
        self.sequence = 0;
        self.access_only = false;
    }

    /// A transaction opens, unless one is open.
    pub fn start_transaction(&mut self, clock: u32) {
        if !self.in_transaction {
            self.in_transaction = true;
            self.begun = clock;
        }
    }

    /// The transaction ends, and that it is ready.
    pub fn end_transaction(&mut self) {
        self.in_transaction = false;
        self.ready = false;
    }

    /// Whether the transaction began more than the time limit ago; of one that is ready time is not asked.
    pub fn is_late(&self, clock: u32) -> bool {
        let passed = clock.saturating_sub(self.begun);
        self.in_transaction && !self.ready && passed > u32::from(self.time_limit)
    }
}

#[derive(Clone, Copy, Debug, PartialEq, Eq)]
pub struct State {
    pub definition: Definition,
    pub clock: u32,
    /// User 1 first.
    pub users: [User; MAX_USERS],
    /// The ISN that N1 last gave, by file number, file 1 first.
    pub last_assigned: [u16; MAX_FILES],
    /// The count of entries in the hold queue.
    pub entries: u32,
    /// Who waits for a record.
    pub line: Line,
}

impl State {
    /// "The kept clock is 0, no user is open, there is no entry and no ET data: a fresh nucleus."
    pub fn fresh(definition: Definition) -> State {
        State {
            definition,
            clock: 0,
            users: [User::fresh(); MAX_USERS],
            last_assigned: [0; MAX_FILES],
            entries: 0,
            line: Line::EMPTY,
        }
    }
}

/// "Too short: store or image buffer below the size above, or queue below H"; or H not 1 to 256.
pub fn lent_too_short(
    definition: &Definition,
    capacity: u32,
    store: &[u8],
    queue: &[Entry],
    images: &[u8],
) -> bool {
    !(1..=MAX_CAPACITY).contains(&capacity)
        || queue.len() < capacity as usize
        || store.len() < store::store_size(definition)
        || images.len() < capacity as usize * definition.greatest_record_length()
}

/// Whether a state is well made.
pub fn is_well_made(state: &State, capacity: u32, queue: &[Entry]) -> bool {
    definition::is_valid(&state.definition)
        && entries_well_made(state, capacity, queue)
        && users_well_made(state)
        && last_assigned_well_made(state)
        && line_well_made(state, queue)
}

/// "At most H entries, no file and ISN in two, each within its file and of a user in a transaction."
fn entries_well_made(state: &State, capacity: u32, queue: &[Entry]) -> bool {
    if state.entries > capacity {
        return false;
    }
    let Some(entries) = queue.get(..state.entries as usize) else {
        return false;
    };
    let all_within = entries
        .iter()
        .all(|entry| within_its_file(state, entry) && of_user_in_transaction(state, entry));
    let no_double = entries
        .iter()
        .enumerate()
        .all(|(place, entry)| hold::position(&entries[..place], entry.file, entry.isn).is_none());
    all_within && no_double
}

fn within_its_file(state: &State, entry: &Entry) -> bool {
    match state.definition.file_index(entry.file) {
        Some(file) => (1..=state.definition.files[file].max_isn).contains(&entry.isn),
        None => false,
    }
}

fn of_user_in_transaction(state: &State, entry: &Entry) -> bool {
    (1..=MAX_USERS).contains(&usize::from(entry.user))
        && state.users[usize::from(entry.user) - 1].in_transaction
}

/// "Whoever is in one has a session; no transaction begun after the kept clock"; whoever is in none is not ready; "ET data
/// at most 64 bytes".
fn users_well_made(state: &State) -> bool {
    state.users.iter().all(|user| {
        (!user.in_transaction || (user.session && user.begun <= state.clock))
            && (user.in_transaction || !user.ready)
            && usize::from(user.et_length) <= MAX_ET_DATA
    })
}

/// "N1's marks at most the highest ISN", for the files of the table.
fn last_assigned_well_made(state: &State) -> bool {
    state
        .definition
        .used_files()
        .iter()
        .all(|file| state.last_assigned[usize::from(file.number) - 1] <= file.max_isn)
}

/// "A waiter has a session and another holds his record"; and a user is in the line once, which has a place for each.
fn line_well_made(state: &State, queue: &[Entry]) -> bool {
    let Some(entries) = queue.get(..state.entries as usize) else {
        return false;
    };
    let another_holds = |waiter: &Waiter| {
        let holder = hold::holder(entries, waiter.file, waiter.isn);
        holder.is_some_and(|holder| holder != waiter.user)
    };
    let is_once = |user: u8| {
        let places = state.line.waiters().filter(|waiter| waiter.user == user);
        places.count() == 1
    };
    state.line.waiting <= MAX_USERS
        && state.line.waiters().all(|waiter| {
            (1..=MAX_USERS).contains(&usize::from(waiter.user))
                && state.users[usize::from(waiter.user) - 1].session
                && is_once(waiter.user)
                && another_holds(&waiter)
        })
}
