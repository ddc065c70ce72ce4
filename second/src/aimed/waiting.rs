//! Aims at the line: joining it, waiting on in it, leaving it, and letting go of what somebody waits for.

use super::{
    all_fields, call_at, file, is_able, is_below_limit, naming, somebody, user, with_option,
    without_buffers, Place,
};
use crate::hold::{self, Entry};
use crate::line::Waiter;
use crate::machine::Machine;
use crate::random::{ListCall, Random};
use crate::state::Call;

/// The entries that somebody waits for.
fn waited_for(machine: &Machine) -> Vec<Entry> {
    let is_waited_for = |entry: &&Entry| {
        let first = machine.state.line.first_for(entry.file, entry.isn);
        first.is_some()
    };
    let entries = machine.entries().iter();
    entries.filter(is_waited_for).copied().collect()
}

fn place_of(machine: &Machine, number: u8, isn: u16) -> Option<Place> {
    let index = machine.state.definition.file_index(number)?;
    Some((index, isn))
}

fn any_waiter(random: &mut Random, machine: &Machine) -> Option<Waiter> {
    let waiters: Vec<Waiter> = machine.state.line.waiters().collect();
    random.pick_any(&waiters)
}

/// The call by which a waiter waits; L4 reads all fields.
fn call_of(random: &mut Random, machine: &Machine, waiter: &Waiter) -> Option<ListCall> {
    let place = place_of(machine, waiter.file, waiter.isn)?;
    let command = if waiter.reads { b"L4" } else { b"HI" };
    let call = with_option(b'W', call_at(machine, command, waiter.user, place));
    if !waiter.reads {
        return Some(without_buffers(call));
    }
    let file = file(machine, place.0);
    let record = vec![0xEE; file.record_length() + random.below(2) as usize];
    Some(naming(call, file, &all_fields(file), record))
}

/// HI or L4 with option `W` of an ISN that another holds, mostly by one who waits for nothing.
pub fn wait(random: &mut Random, machine: &Machine) -> Option<ListCall> {
    let moves = random.once_in(4);
    wait_by(random, machine, |number| {
        is_below_limit(machine, number) && machine.state.line.has(number) == moves
    })
}

/// The same by one who is at his hold limit.
pub fn wait_at_limit(random: &mut Random, machine: &Machine) -> Option<ListCall> {
    wait_by(random, machine, |number| !is_below_limit(machine, number))
}

/// The same by one who is so; every second time of an ISN that somebody waits for.
fn wait_by(random: &mut Random, machine: &Machine, is_so: impl Fn(u8) -> bool) -> Option<ListCall> {
    let waited_for = waited_for(machine);
    let entry = match waited_for.is_empty() || random.once_in(2) {
        true => random.pick_any(machine.entries())?,
        false => random.pick(&waited_for),
    };
    let user = somebody(random, |number| {
        number != entry.user && is_able(machine, number) && is_so(number)
    })?;
    let waiter = Waiter {
        user,
        file: entry.file,
        isn: entry.isn,
        reads: random.once_in(2),
    };
    call_of(random, machine, &waiter)
}

/// The same by one whom somebody waits for, of what that one holds: they wait for each other.
pub fn close_ring(random: &mut Random, machine: &Machine) -> Option<ListCall> {
    let mut rings: Vec<Waiter> = Vec::new();
    for waiter in machine.state.line.waiters() {
        let waited_for = hold::holder(machine.entries(), waiter.file, waiter.isn)?;
        let his = machine
            .entries()
            .iter()
            .filter(|entry| entry.user == waiter.user);
        rings.extend(his.map(|entry| Waiter {
            user: waited_for,
            file: entry.file,
            isn: entry.isn,
            reads: waiter.reads,
        }));
    }
    rings.retain(|ring| is_able(machine, ring.user) && is_below_limit(machine, ring.user));
    let ring = random.pick_any(&rings)?;
    call_of(random, machine, &ring)
}

/// The same call of one who waits; an L4 now and then with a format buffer that breaks its form, or a short record buffer.
pub fn wait_again(random: &mut Random, machine: &Machine) -> Option<ListCall> {
    let waiter = any_waiter(random, machine)?;
    let mut again = call_of(random, machine, &waiter)?;
    match random.below(6) {
        0 => drop(again.format.pop()),
        1 => again.record.clear(),
        _ => {}
    }
    Some(again)
}

/// Another call of one who waits: of another record, by the other command, of the same record without `W`, of nothing; or one
/// that is none of his commands.
pub fn wait_no_more(random: &mut Random, machine: &Machine) -> Option<ListCall> {
    let waiter = any_waiter(random, machine)?;
    let other = match random.below(8) {
        0..=2 => for_another(random, machine, waiter),
        3..=4 => Waiter {
            reads: !waiter.reads,
            ..waiter
        },
        _ => waiter,
    };
    let mut list_call = call_of(random, machine, &other)?;
    if other == waiter {
        let place = place_of(machine, waiter.file, waiter.isn)?;
        let (command, option) = random.pick(&[
            (b"HI", b' '),
            (b"HI", b'w'),
            (b"XX", b' '),
            (b"RE", b' '),
            (b"L1", b' '),
            (b"N1", b' '),
            (b"RI", b' '),
            (b"OP", b'A'),
            (b"CL", b' '),
            (b"CL", b' '),
        ]);
        list_call.call = with_option(option, call_at(machine, command, waiter.user, place));
    }
    Some(list_call)
}

/// Who waits, for another record that another holds, if there is one.
fn for_another(random: &mut Random, machine: &Machine, waiter: Waiter) -> Waiter {
    let mut entries = machine.entries().to_vec();
    entries.retain(|entry| entry.user != waiter.user && !waiter.is_for(entry.file, entry.isn));
    match random.pick_any(&entries) {
        Some(Entry { file, isn, .. }) => Waiter {
            file,
            isn,
            ..waiter
        },
        None => waiter,
    }
}

/// A call by which a holder lets go of what somebody waits for: RI of it or of all, ET, BT, OP or CL.
pub fn let_go(random: &mut Random, machine: &Machine) -> Option<ListCall> {
    let mut entries = waited_for(machine);
    entries.retain(|entry| is_able(machine, entry.user) || user(machine, entry.user).ready);
    let can_release = |entry: &Entry| !entry.changed && is_able(machine, entry.user);
    if random.once_in(2) && entries.iter().any(can_release) {
        entries.retain(can_release);
    }
    let entry = random.pick_any(&entries)?;
    let place = place_of(machine, entry.file, entry.isn)?;
    let commands: &[&[u8; 2]] = match entry.changed || user(machine, entry.user).ready {
        true => &[b"ET", b"ET", b"BT", b"BT", b"OP", b"CL"],
        false => &[b"RI", b"RI", b"RI", b"RI", b"ET", b"BT", b"OP", b"CL"],
    };
    let command = random.pick(commands);
    let mut call = call_at(machine, command, entry.user, place);
    if command != b"RI" || random.once_in(2) {
        call.isn = 0;
    }
    Some(without_buffers(call))
}

/// A call at the clock at which the holder of what somebody waits for has had more than his time: of the first in line, the
/// same again; of any waiter; or of somebody.
pub fn outlast_holder(random: &mut Random, machine: &Machine) -> Option<ListCall> {
    let mut entries = waited_for(machine);
    entries.retain(|entry| !user(machine, entry.user).ready);
    let entry = random.pick_any(&entries)?;
    let first = machine.state.line.first_for(entry.file, entry.isn)?;
    let mut list_call = match random.below(4) {
        0..=1 => call_of(random, machine, &first)?,
        2 => wait_no_more(random, machine)?,
        _ => {
            let user = somebody(random, |number| is_able(machine, number))?;
            without_buffers(call_at(machine, b"ET", user, (0, 0)))
        }
    };
    list_call.call = Call {
        clock: late_clock(machine, entry.user),
        ..list_call.call
    };
    Some(list_call)
}

/// The first clock at which a user's transaction has taken more than his time limit.
fn late_clock(machine: &Machine, number: u8) -> u32 {
    let user = user(machine, number);
    let limit = u32::from(user.time_limit);
    user.begun.saturating_add(limit).saturating_add(1)
}
