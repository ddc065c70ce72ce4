//! Lines that no call made: well made ones, and such as are bad in one thing alone.

use crate::hold::{self, Entry};
use crate::line::Waiter;
use crate::machine::Machine;
use crate::random::Random;
use crate::state::MAX_USERS;

/// The first users: calls are mostly theirs.
const FIRST: u8 = 6;

/// Lets some users wait, each for an entry of another; now and then everybody. Places past them have anything.
pub fn wait_some(random: &mut Random, machine: &mut Machine) {
    for word in &mut machine.state.line.places {
        *word = random.number();
    }
    if random.once_in(12) {
        wait_all(random, machine);
        return;
    }
    let wanted = random.pick(&[0, 1, 2, 3, 4, 12]);
    for user in order(random, machine) {
        let has_session = machine.state.users[usize::from(user) - 1].session;
        if has_session && machine.state.line.waiting < wanted {
            wait(random, machine, user);
        }
    }
}

/// Every user has a session and waits; but for those for whom there is nothing that another holds.
fn wait_all(random: &mut Random, machine: &mut Machine) {
    machine.state.line.waiting = 0;
    for user in &mut machine.state.users {
        user.session = true;
    }
    for user in order(random, machine) {
        wait(random, machine, user);
    }
}

/// All users in any order; or the first few before the others, or those who hold something.
fn order(random: &mut Random, machine: &Machine) -> Vec<u8> {
    let kind = random.below(3);
    let is_preferred = |user: &u8| match kind {
        0 => false,
        1 => *user <= FIRST,
        _ => hold::count_of(machine.entries(), *user) > 0,
    };
    let users = 1..=MAX_USERS as u8;
    let (preferred, others): (Vec<u8>, Vec<u8>) = users.partition(is_preferred);
    [shuffled(random, preferred), shuffled(random, others)].concat()
}

fn shuffled(random: &mut Random, mut users: Vec<u8>) -> Vec<u8> {
    for place in (1..users.len()).rev() {
        users.swap(place, random.below(place as u64 + 1) as usize);
    }
    users
}

/// A user joins the line of an entry that another has, if there is one.
fn wait(random: &mut Random, machine: &mut Machine, user: u8) {
    let mut entries: Vec<Entry> = machine.entries().to_vec();
    entries.retain(|entry| entry.user != user);
    if let Some(entry) = random.pick_any(&entries) {
        put(random, machine, user, entry.file, entry.isn);
    }
}

/// A place of anybody who waits for anything.
pub fn word(random: &mut Random) -> u64 {
    let waiter = Waiter {
        user: random.below(7) as u8,
        file: random.below(18) as u8,
        isn: random.below(7) as u16,
        reads: random.once_in(2),
    };
    waiter.word()
}

/// Puts somebody at the line's end, with anything in the bits that are not looked at.
fn put(random: &mut Random, machine: &mut Machine, user: u8, file: u8, isn: u16) {
    let waiter = Waiter {
        user,
        file,
        isn,
        reads: random.once_in(2),
    };
    let spare = match random.once_in(4) {
        true => random.number() >> 33 << 33,
        false => 0,
    };
    let line = &mut machine.state.line;
    line.places[line.waiting] = waiter.word() | spare;
    line.waiting += 1;
}

/// Lets one thing alone be bad in a line that is well made. Answers whether there was something for it.
pub fn spoil(random: &mut Random, machine: &mut Machine) -> bool {
    let mut holders = machine.entries().windows(2);
    let kinds = match holders.any(|pair| pair[0].user != pair[1].user) {
        true => 8,
        false => 6,
    };
    (0..4).any(|_| match random.below(kinds) {
        kind @ 0..=5 => add_bad_waiter(random, machine, kind),
        _ => {
            wait_all(random, machine);
            machine.state.line.waiting = random.pick(&[33, 1 << 32, usize::MAX]);
            true
        }
    })
}

/// Puts one waiter too many into the line: user 0, while user 1 might wait; a number above 32; one without a session; one who
/// is in the line; one who waits for what nobody holds, or for what he holds himself.
fn add_bad_waiter(random: &mut Random, machine: &mut Machine, kind: u64) -> bool {
    let Some(entry) = random.pick_any(machine.entries()) else {
        return false;
    };
    match kind {
        0 => {
            machine.state.users[0].session = true;
            machine.state.line.leave(1);
        }
        5 => machine.state.line.leave(entry.user),
        _ => {}
    }
    let user = match kind {
        0 => Some(0),
        1 => Some(random.pick(&[33, 255])),
        2 => without_session(random, machine),
        3 => in_line(random, machine, &entry),
        4 => able_to_wait(random, machine),
        _ => Some(entry.user),
    };
    let (file, isn) = match kind {
        4 => free_place(random, machine),
        _ => (entry.file, entry.isn),
    };
    match user {
        Some(user) if machine.state.line.waiting < MAX_USERS => {
            put(random, machine, user, file, isn);
            let last = machine.state.line.waiting - 1;
            let other = random.below(last as u64 + 1) as usize;
            machine.state.line.places.swap(last, other);
            true
        }
        _ => false,
    }
}

fn somebody(random: &mut Random, is_so: impl Fn(u8) -> bool) -> Option<u8> {
    let users: Vec<u8> = (1..=MAX_USERS as u8).filter(|user| is_so(*user)).collect();
    random.pick_any(&users)
}

fn without_session(random: &mut Random, machine: &Machine) -> Option<u8> {
    let users = &machine.state.users;
    somebody(random, |user| !users[usize::from(user) - 1].session)
}

/// One who waits, and does not hold this entry.
fn in_line(random: &mut Random, machine: &Machine, entry: &Entry) -> Option<u8> {
    let line = &machine.state.line;
    somebody(random, |user| line.has(user) && user != entry.user)
}

/// One who has a session and does not wait.
fn able_to_wait(random: &mut Random, machine: &Machine) -> Option<u8> {
    let state = &machine.state;
    somebody(random, |user| {
        state.users[usize::from(user) - 1].session && !state.line.has(user)
    })
}

/// An ISN that nobody holds, of a file in the table or of none.
fn free_place(random: &mut Random, machine: &Machine) -> (u8, u16) {
    let files = machine.state.definition.used_files().iter();
    let mut free: Vec<(u8, u16)> = files
        .flat_map(|file| (1..=file.max_isn).map(|isn| (file.number, isn)))
        .filter(|(file, isn)| hold::position(machine.entries(), *file, *isn).is_none())
        .collect();
    free.extend([(0, 0), (17, 1)]);
    random.pick(&free)
}
