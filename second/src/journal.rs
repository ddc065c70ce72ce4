//! The journal of requirement 3 (document 01: the book). It sees the table and each call with its response and ISN,
//! never the nucleus, and says which records there are.

use crate::definition::{self, Definition};
use crate::fields;
use crate::state::{Call, Command, User, MAX_USERS};
use std::collections::BTreeMap;

/// Records by file number and ISN.
pub type Records = BTreeMap<(u8, u16), Vec<u8>>;

/// A record that a user holds.
#[derive(Clone, Copy, Debug, PartialEq, Eq)]
pub struct Hold {
    pub user: u8,
    pub file: u8,
    pub isn: u16,
    pub changed: bool,
}

/// A user's place in the line: the call by which he waits.
#[derive(Clone, Copy, Debug, PartialEq, Eq)]
pub struct Place {
    pub user: u8,
    pub command: Command,
    pub file: u8,
    pub isn: u16,
}

#[derive(Clone, Debug)]
struct Change {
    user: u8,
    command: Command,
    file: u8,
    isn: u16,
    format: Vec<u8>,
    record: Vec<u8>,
    open: bool,
    struck: bool,
}

#[derive(Clone, Debug)]
pub struct Journal {
    definition: Definition,
    clock: u32,
    changes: Vec<Change>,
    time_limits: [u16; MAX_USERS],
    begun: [Option<u32>; MAX_USERS],
    /// Whose transaction a PE answered 0 set ready.
    ready: [bool; MAX_USERS],
    /// Oldest first.
    holds: Vec<Hold>,
    line: Vec<Place>,
    /// The records that the last call and its clock let go, as often as they did.
    let_go: Vec<(u8, u16)>,
}

impl Journal {
    /// "It has a clock, first 0, a list of changes and for each user a time limit, first 900, and the start of his
    /// transaction, if any"; document 02, No. 1: it "keeps holds and lines by these rules from the calls and answers". None
    /// where the table is bad.
    pub fn new(table: &[u8]) -> Option<Journal> {
        Some(Journal {
            definition: definition::read_table(table)?,
            clock: 0,
            changes: Vec::new(),
            time_limits: [User::DEFAULT_TIME_LIMIT; MAX_USERS],
            begun: [None; MAX_USERS],
            ready: [false; MAX_USERS],
            holds: Vec::new(),
            line: Vec::new(),
            let_go: Vec::new(),
        })
    }

    /// Takes one call with the record buffer that it brought, and what the nucleus answered.
    pub fn feed(&mut self, call: &Call, format: &[u8], record: &[u8], response: u16, isn: u16) {
        self.let_go.clear();
        if matches!(response, 10 | 11 | 12 | 22 | 72) {
            return;
        }
        let Some(command) = Command::from_code(call.command) else {
            return;
        };
        self.leave_by(call, command);
        self.raise_clock(call.clock);
        match (command, response) {
            (_, 20) => self.join(call, command),
            (Command::Hi | Command::L4, 0) => self.hold(call.user, call.file, isn),
            (Command::A1 | Command::E1 | Command::N1 | Command::N2, 0) => {
                self.hold(call.user, call.file, isn);
                self.mark_changed(call.file, isn);
                self.add_change(call, command, isn, format, record);
            }
            (Command::Ri, 0) => self.release(call),
            (Command::Et, 0) => self.end(call.user),
            (Command::Bt, 0) | (Command::Op | Command::Cl, 9) => self.back_out(call.user),
            (Command::Op, 0) => self.set_time_limit(call.user, call.limit),
            (Command::Cl, 0) => self.set_time_limit(call.user, 0),
            (Command::Pe, 0) => self.ready[usize::from(call.user) - 1] = true,
            _ => {}
        }
    }

    /// "Raises the clock to its own, if greater, and backs out each user whose transaction began more than his limit
    /// ago"; "time doesn't back him out (nor in the book of requirement 3, after a PE answered 0)".
    fn raise_clock(&mut self, clock: u32) {
        self.clock = self.clock.max(clock);
        for user in 1..=MAX_USERS as u8 {
            let index = usize::from(user) - 1;
            let late = self.begun[index]
                .is_some_and(|begun| self.clock - begun > u32::from(self.time_limits[index]));
            if late && !self.ready[index] {
                self.back_out(user);
            }
        }
    }

    /// The place that a call has, or would have, in the line.
    fn place(call: &Call, command: Command) -> Place {
        Place {
            user: call.user,
            command,
            file: call.file,
            isn: call.isn,
        }
    }

    /// "The same command, option, file and ISN again while he waits keeps his place; any other call of his .. leaves".
    fn leave_by(&mut self, call: &Call, command: Command) {
        let keeps_it = call.option == b'W' && self.line.contains(&Journal::place(call, command));
        if !keeps_it {
            self.leave(call.user);
        }
    }

    fn leave(&mut self, user: u8) {
        self.line.retain(|place| place.user != user);
    }

    fn join(&mut self, call: &Call, command: Command) {
        if self.line.iter().all(|place| place.user != call.user) {
            self.line.push(Journal::place(call, command));
        }
    }

    /// A hold, unless it is there, and the start of its user's transaction.
    fn hold(&mut self, user: u8, file: u8, isn: u16) {
        let mut holds = self.holds.iter();
        if holds.all(|hold| (hold.file, hold.isn) != (file, isn)) {
            self.holds.push(Hold {
                user,
                file,
                isn,
                changed: false,
            });
        }
        self.begun[usize::from(user) - 1].get_or_insert(self.clock);
    }

    fn mark_changed(&mut self, file: u8, isn: u16) {
        let mut holds = self.holds.iter_mut();
        if let Some(hold) = holds.find(|hold| (hold.file, hold.isn) == (file, isn)) {
            hold.changed = true;
        }
    }

    /// RI drops one hold; of ISN 0 all that are unchanged.
    fn release(&mut self, call: &Call) {
        let Call {
            user, file, isn, ..
        } = *call;
        self.let_go(|hold| {
            let named = (hold.file, hold.isn) == (file, isn) || (isn == 0 && !hold.changed);
            hold.user == user && named
        });
    }

    /// Drops the holds that go. Then each, the oldest first, is handed to the first who waits for its record.
    fn let_go(&mut self, goes: impl Fn(&Hold) -> bool) {
        let (gone, kept): (Vec<Hold>, Vec<Hold>) = self.holds.iter().partition(|hold| goes(hold));
        self.holds = kept;
        for Hold { file, isn, .. } in gone {
            self.let_go.push((file, isn));
            let mut line = self.line.iter();
            let first = line.find(|place| (place.file, place.isn) == (file, isn));
            if let Some(Place { user, .. }) = first.copied() {
                self.leave(user);
                self.hold(user, file, isn);
            }
        }
    }

    fn add_change(
        &mut self,
        call: &Call,
        command: Command,
        isn: u16,
        format: &[u8],
        record: &[u8],
    ) {
        self.changes.push(Change {
            user: call.user,
            command,
            file: call.file,
            isn,
            format: format.to_vec(),
            record: record.to_vec(),
            open: true,
            struck: false,
        });
    }

    fn end(&mut self, user: u8) {
        self.begun[usize::from(user) - 1] = None;
        self.ready[usize::from(user) - 1] = false;
        for change in self.changes.iter_mut().filter(|change| change.user == user) {
            change.open = false;
        }
        self.let_go(|hold| hold.user == user);
    }

    /// "His open changes are struck, his transaction ends"; "a back-out takes its user from the line".
    pub fn back_out(&mut self, user: u8) {
        for change in &mut self.changes {
            if change.user == user && change.open {
                change.struck = true;
            }
        }
        self.leave(user);
        self.end(user);
    }

    fn set_time_limit(&mut self, user: u8, limit: u16) {
        let limit = match limit {
            0 => User::DEFAULT_TIME_LIMIT,
            given => given,
        };
        self.time_limits[usize::from(user) - 1] = limit;
    }

    /// What is held, oldest first.
    pub fn holds(&self) -> &[Hold] {
        &self.holds
    }

    /// Who waits, oldest first.
    pub fn line(&self) -> &[Place] {
        &self.line
    }

    /// How often the last call, with what its clock did, let go of a record.
    pub fn let_gos(&self, file: u8, isn: u16) -> usize {
        let let_go = self.let_go.iter();
        let_go.filter(|place| **place == (file, isn)).count()
    }

    /// The start of a user's transaction, if he is in one.
    pub fn begun(&self, user: u8) -> Option<u32> {
        self.begun[usize::from(user) - 1]
    }

    /// The users whom the journal has in a transaction, rising.
    pub fn in_transaction(&self) -> Vec<u8> {
        (1..=MAX_USERS as u8)
            .filter(|user| self.begun[usize::from(*user) - 1].is_some())
            .collect()
    }

    /// "Its records come from empty files by the changes not struck, in order, in stored form."
    pub fn records(&self) -> Records {
        let mut records = Records::new();
        for change in self.changes.iter().filter(|change| !change.struck) {
            self.apply(change, &mut records);
        }
        records
    }

    /// "A1 sets the named fields of a record there, E1 empties, N1 and N2 add."
    fn apply(&self, change: &Change, records: &mut Records) {
        let Some(index) = self.definition.file_index(change.file) else {
            return;
        };
        let file = &self.definition.files[index];
        let place = (change.file, change.isn);
        let elements = fields::elements(file, &change.format).unwrap_or_default();
        match change.command {
            Command::A1 => {
                if let Some(content) = records.get_mut(&place) {
                    fields::replace_named(file, &elements, &change.record, content);
                }
            }
            Command::E1 => {
                records.remove(&place);
            }
            _ => {
                let mut content = fields::null_record(file);
                fields::replace_named(file, &elements, &change.record, &mut content);
                records.insert(place, content);
            }
        }
    }
}
