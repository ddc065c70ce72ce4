//! Random states that nobody set up, good and bad, with lent buffers of any size; a call for each, aimed or not; and
//! tables that may break a rule.

mod lines;

use crate::aimed;
use crate::definition::{self, Definition, Field, File, MAX_FIELDS, MAX_FILES};
use crate::hold::Entry;
use crate::machine::Machine;
use crate::random::{self, ListCall, Random};
use crate::state::{self, Call, State, User};
use crate::store;

/// A random machine, and whether it was left well made and large enough.
pub fn machine(random: &mut Random) -> (Machine, bool) {
    let mut machine = well_made_machine(random);
    if random.once_in(2) {
        return (machine, true);
    }
    for _ in 0..random.between(1, 3) {
        spoil(random, &mut machine);
    }
    (machine, false)
}

/// A random machine, whether it was left well made, and a call. The call is aimed at what is there; or the machine is
/// well made but for the user of one entry, or for one who is ready.
pub fn aimed(random: &mut Random) -> (Machine, bool, ListCall) {
    let mut machine = well_made_machine(random);
    double_record(random, &mut machine);
    let spoilt = random.once_in(3) && spoil_user(random, &mut machine);
    with_call(random, machine, spoilt, aimed::call)
}

/// The same of the line: the call is aimed at it, or the machine is well made but for one who waits.
pub fn aimed_at_line(random: &mut Random) -> (Machine, bool, ListCall) {
    let mut machine = well_made_machine(random);
    let spoilt = random.once_in(3) && lines::spoil(random, &mut machine);
    with_call(random, machine, spoilt, aimed::line_call)
}

/// A machine with an aimed call; with any, where it is not well made or there is nothing to aim at.
fn with_call(
    random: &mut Random,
    machine: Machine,
    spoilt: bool,
    aim: fn(&mut Random, &Machine) -> Option<ListCall>,
) -> (Machine, bool, ListCall) {
    let aimed = match spoilt {
        true => None,
        false => aim(random, &machine),
    };
    let list_call = aimed.unwrap_or_else(|| call(random, &machine));
    (machine, !spoilt, list_call)
}

fn well_made_machine(random: &mut Random) -> Machine {
    let table = random::table(random);
    let definition = definition::read_table(&table).expect("valid");
    let capacity = random.pick(&[1, 2, 3, 4, 6, 256]);
    let spare = random.below(4) as usize;
    let mut machine = Machine {
        state: random_state(random, definition),
        capacity,
        store: (0..store::store_size(&definition) + spare)
            .map(|_| random.pick(&[0, 1, 1, b'0', b' ', 0x0F, 0x0C, 0xFF]))
            .collect(),
        queue: (0..capacity as usize + spare)
            .map(|_| random_entry(random))
            .collect(),
        images: (0..capacity as usize * definition.greatest_record_length() + spare)
            .map(|_| random.pick(&[0, 1, b'0', b' ', 0x0F]))
            .collect(),
    };
    hold_some(random, &mut machine);
    lines::wait_some(random, &mut machine);
    machine
}

fn random_entry(random: &mut Random) -> Entry {
    Entry {
        user: random.below(5) as u8,
        file: random.below(18) as u8,
        isn: random.below(7) as u16,
        changed: random.once_in(2),
        existed: random.once_in(2),
    }
}

/// Places past a count have anything: fields with the name of another or one of their own, and one file more, like the
/// first.
fn fill_unused(random: &mut Random, definition: &mut Definition) {
    let used = definition.used_files().len();
    definition.files[used] = definition.files[0];
    for file in &mut definition.files[..=used] {
        for place in usize::from(file.count)..MAX_FIELDS {
            file.fields[place] = Field {
                name: random.pick(&[*b"AA", [b'Z', b'A' + place as u8]]),
                length: random.pick(&[0, 1, 2, 15, 16, 255]),
                format: random.pick(b"ABUP"),
                option: random.pick(b"UD "),
            };
        }
    }
}

fn random_state(random: &mut Random, mut definition: Definition) -> State {
    fill_unused(random, &mut definition);
    let mut state = State::fresh(definition);
    state.clock = random.below(1000) as u32;
    for user in &mut state.users {
        *user = random_user(random, state.clock);
    }
    for mark in &mut state.last_assigned {
        *mark = random.number() as u16;
    }
    for file in definition.used_files() {
        let mark = random.between(0, u64::from(file.max_isn)) as u16;
        state.last_assigned[usize::from(file.number) - 1] = mark;
    }
    state
}

fn random_user(random: &mut Random, clock: u32) -> User {
    let in_transaction = random.once_in(3);
    let mut user = User {
        session: in_transaction || random.once_in(2),
        hold_limit: random.pick(&[0, 1, 2, 64, u16::MAX]),
        time_limit: random.pick(&[0, 5, 900, 900, 900, u16::MAX]),
        sequence: random.pick(&[0, 7, u32::MAX - 1, u32::MAX]),
        access_only: random.once_in(8),
        in_transaction,
        begun: random.number() as u32,
        ready: in_transaction && random.once_in(3),
        overdue: random.once_in(12),
        et_length: random.pick(&[0, 1, 64]),
        et_data: [random.number() as u8; 64],
    };
    if in_transaction {
        user.begun = clock - random.below(u64::from(clock) + 1) as u32;
    }
    if user.ready && random.once_in(2) {
        user.access_only = random.once_in(2);
        user.overdue = !user.access_only;
    }
    user
}

/// Fills the front of the queue with entries of users in a transaction, each of another ISN.
fn hold_some(random: &mut Random, machine: &mut Machine) {
    let holders = machine.in_transaction();
    let mut isns: Vec<(u8, u16)> = machine
        .state
        .definition
        .used_files()
        .iter()
        .flat_map(|file| (1..=file.max_isn).map(|isn| (file.number, isn)))
        .collect();
    let wanted = random.between(0, u64::from(machine.capacity)) as usize;
    while !holders.is_empty() && !isns.is_empty() && (machine.state.entries as usize) < wanted {
        let (file, isn) = isns.swap_remove(random.below(isns.len() as u64) as usize);
        machine.queue[machine.state.entries as usize] = Entry {
            user: random.pick(&holders),
            file,
            isn,
            ..random_entry(random)
        };
        machine.state.entries += 1;
    }
}

/// Lets two ISNs of a file have the same record, so that each unique value in it is there twice; in a file that has
/// unique fields and others, if any.
fn double_record(random: &mut Random, machine: &mut Machine) {
    let definition = &machine.state.definition;
    let is_mixed = |index: &usize| {
        let file = &definition.files[*index];
        let unique = file.used_fields().iter().filter(|field| field.is_unique());
        file.max_isn > 1 && (1..file.used_fields().len()).contains(&unique.count())
    };
    let mixed: Vec<usize> = (0..definition.used_files().len())
        .filter(is_mixed)
        .collect();
    let Some(index) = random.pick_any(&mixed) else {
        return;
    };
    let one = random.between(1, u64::from(definition.files[index].max_isn) - 1) as u16;
    let mut content = store::record(definition, &machine.store, index, one).to_vec();
    bring_packed(random, &definition.files[index], &mut content);
    for isn in [one, one + 1] {
        store::put_record(definition, &mut machine.store, index, isn, &content);
    }
}

/// Lets some packed values of a record be as a call brings them, few of these in stored form.
fn bring_packed(random: &mut Random, file: &File, content: &mut [u8]) {
    for field in 0..file.used_fields().len() {
        if file.fields[field].format == b'P' && random.once_in(2) {
            let value = random::values(random, file, &[field]);
            content[file.field_range(field)].copy_from_slice(&value);
        }
    }
}

/// Lets one thing alone be bad: an entry's user, or a user in no transaction is ready.
fn spoil_user(random: &mut Random, machine: &mut Machine) -> bool {
    match random.once_in(4) {
        true => spoil_ready(random, machine),
        false => spoil_holder(random, machine),
    }
}

/// Sets somebody ready who is in no transaction. Answers whether there was one.
fn spoil_ready(random: &mut Random, machine: &mut Machine) -> bool {
    let users = &mut machine.state.users;
    let mut idle: Vec<&mut User> = users
        .iter_mut()
        .filter(|user| !user.in_transaction)
        .collect();
    let place = random.below(idle.len().max(1) as u64) as usize;
    match idle.get_mut(place) {
        Some(user) => {
            user.ready = true;
            true
        }
        None => false,
    }
}

/// Gives an entry to user 0, while user 1 is in a transaction; to a number above 32; or to a user in no transaction.
/// Answers whether there was one.
fn spoil_holder(random: &mut Random, machine: &mut Machine) -> bool {
    let state = &mut machine.state;
    if state.entries == 0 {
        return false;
    }
    let place = random.below(u64::from(state.entries)) as usize;
    let idle: Vec<u8> = (1u8..)
        .zip(&state.users)
        .filter(|(_, user)| !user.in_transaction)
        .map(|(number, _)| number)
        .collect();
    let holder = match random.below(3) {
        0 => {
            state.users[0].session = true;
            state.users[0].in_transaction = true;
            state.users[0].begun = state.clock;
            0
        }
        1 => random.pick(&[33, 255]),
        _ => random.pick_any(&idle).unwrap_or(0),
    };
    machine.queue[place].user = holder;
    true
}

/// Changes one thing, which may or may not break a rule.
fn spoil(random: &mut Random, machine: &mut Machine) {
    let place = random.below(machine.queue.len() as u64 + 1) as usize;
    let user = random.below(32) as usize;
    let definition = &mut machine.state.definition;
    match random.below(24) {
        0 => machine.capacity = random.pick(&[0, 257, u32::MAX]),
        1 => machine.capacity = random.between(1, 8) as u32,
        2 => machine.queue.truncate(place),
        3 => drop(machine.store.pop()),
        4 => machine.store.truncate(place),
        5 => drop(machine.images.pop()),
        6 => machine.images.truncate(place),
        7 => machine.state.entries = random.pick(&[1, 2, 256, 257, u32::MAX]),
        8 => definition.count = random.number() as u8,
        9 => definition.files[0].count = random.number() as u8,
        10 => definition.files[0].max_isn = random.number() as u16,
        11 => definition.files[0].number = random.below(18) as u8,
        12 => definition.files[0].fields[0].length = random.number() as u8,
        13 => machine.state.users[user].et_length = random.number() as u8,
        14 => machine.state.users[user].in_transaction = random.once_in(2),
        15 => machine.state.users[user].session = false,
        16 => machine.state.last_assigned[place % MAX_FILES] = random.below(7) as u16,
        17 => machine.state.clock = random.below(1000) as u32,
        18 | 19 => repeat_entry(random, machine),
        20 => machine.state.users[user].ready = random.once_in(2),
        21 => machine.state.line.waiting = random.pick(&[0, 1, 2, 32, 33, usize::MAX]),
        22 => machine.state.line.places[place % 4] = lines::word(random),
        _ => {
            if let Some(entry) = machine.queue.first_mut() {
                *entry = random_entry(random);
            }
        }
    }
}

/// Lets the last entry have the file and ISN of another.
fn repeat_entry(random: &mut Random, machine: &mut Machine) {
    let last = machine.queue.len().min(machine.state.entries as usize);
    if let [before @ .., entry] = &mut machine.queue[..last] {
        if !before.is_empty() {
            *entry = Entry {
                user: entry.user,
                ..random.pick(before)
            };
        }
    }
}

/// A call that looks at little.
pub fn call(random: &mut Random, machine: &Machine) -> ListCall {
    let files = machine.state.definition.used_files();
    let number = match files {
        [] => 1,
        _ => random.pick(files).number,
    };
    let call = Call {
        command: random.pick(&state::codes()),
        option: random.pick(b"      IHACWW"),
        user: random.between(1, 6) as u8,
        file: number,
        isn: random.below(6) as u16,
        limit: random.below(3) as u16,
        clock: random.below(2000) as u32,
    };
    let format = random.pick(&[
        &b"AA."[..],
        b"AB,AA.",
        b"AA,AA.",
        b"AC.",
        b"AD,AC,AB,AA.",
        b".",
        b"AA,.",
        b"",
    ]);
    let record = (0..random.pick(&[0, 1, 2, 4, 8, 64, 65]))
        .map(|_| random.pick(&[0, 1, b'0', b'1', b' ', 0x0F, 0x0C, 0x1B, 0x1D]))
        .collect();
    ListCall {
        call,
        format: format.to_vec(),
        record,
    }
}

/// A table that may break a rule: a valid one with one or two bytes changed, cut short, or with bytes or items too many.
pub fn table(random: &mut Random) -> Vec<u8> {
    let mut table = random::table(random);
    for _ in 0..random.between(1, 2) {
        let place = random.below(table.len() as u64) as usize;
        match random.below(8) {
            0 => table.truncate(place),
            1 => table.push(random.pick(&[0, 1, 2, 255])),
            2 => drop(table.remove(place)),
            3 => table.insert(place, random.pick(&[0, 1, 2, b'A'])),
            4 => table.splice(..0, random::table(random)).for_each(drop),
            5 => table.splice(..0, items(random)).for_each(drop),
            _ => table[place] = random.pick(&[0, 1, 2, 16, 17, b' ', b'9', b'A', b'Z', b'a', 255]),
        }
        if table.is_empty() {
            break;
        }
    }
    table
}

/// The items of a file that is at or past a limit: fields, bytes together, or the greatest length of a format.
fn items(random: &mut Random) -> Vec<u8> {
    let mut items = vec![definition::FILE_ITEM, 16, 0x0F, 0xFF];
    let (format, greatest) = random.pick(&[(b'A', 253), (b'B', 126), (b'U', 29), (b'P', 15)]);
    for name in 0..random.pick(&[1, 2, 3, 16, 17]) {
        items.extend([definition::FIELD_ITEM, b'B', b'A' + name]);
        items.push(greatest - random.below(2) as u8 + random.below(2) as u8);
        items.extend([format, b' ']);
    }
    items
}
