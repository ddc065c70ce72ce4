//! The cases of the line: who joins it, waits on in it and leaves it, what is handed over by which call to whom, and which
//! lines are not well made.

use crate::hold::{self, Entry};
use crate::line::Waiter;
use crate::machine::Machine;
use crate::state::{self, Answer, Call, Command, User, MAX_USERS};

pub const CASES: [&str; 41] = [
    "HI joins a line",
    "L4 joins a line",
    "L4 joins the line of an ISN without a record",
    "HI waits on",
    "L4 waits on",
    "L4 of a waiter refused",
    "W at the hold limit",
    "W of what nobody holds",
    "W for another record",
    "W by the other command",
    "W closes a ring",
    "another call of a waiter",
    "another call of a waiter, refused",
    "CL of a waiter",
    "22 of a waiter",
    "a waiter backed out",
    "handed over by RI of one ISN",
    "handed over by RI of ISN 0",
    "handed over by ET",
    "handed over by BT",
    "handed over by OP or CL",
    "handed over by the clock",
    "two handed over",
    "handed over, a transaction open",
    "handed over, none open",
    "handed over, others wait on",
    "handed over to the caller",
    "handed over and handed on",
    "handed over, the image put back",
    "handed over, the ISN emptied",
    "handed over past the hold limit",
    "handed over to a marked user",
    "handed over to an access-only user",
    "a line of 32",
    "a waiter of user 0",
    "a waiter above 32",
    "a waiter without a session",
    "a waiter twice",
    "a waiter for what nobody holds",
    "a waiter for what he holds",
    "more waiters than users",
];

fn user(machine: &Machine, number: u8) -> &User {
    &machine.state.users[usize::from(number) - 1]
}

fn entry_at(machine: &Machine, waiter: &Waiter) -> Option<Entry> {
    let place = hold::position(machine.entries(), waiter.file, waiter.isn);
    place.map(|place| machine.entries()[place])
}

fn waits_on(machine: &Machine, waiter: &Waiter) -> bool {
    machine.state.line.waiters().any(|placed| placed == *waiter)
}

/// The cases that a call was which neither 11 nor 12 refused.
pub fn of(before: &Machine, after: &Machine, call: &Call, answer: &Answer) -> Vec<&'static str> {
    let mut cases = of_caller(before, after, call, answer);
    let handed_over: Vec<Waiter> = before
        .state
        .line
        .waiters()
        .filter(|waiter| is_handed_over(before, after, waiter, call))
        .collect();
    for waiter in &handed_over {
        cases.extend(of_hand_over(before, after, waiter, call, answer));
    }
    let is_backed_out = |waiter: Waiter| {
        let marked = |machine| user(machine, waiter.user).overdue;
        waiter.user != call.user && marked(after) && !marked(before)
    };
    let backed_out = before.state.line.waiters().any(is_backed_out);
    cases.extend(backed_out.then_some("a waiter backed out"));
    cases.extend((handed_over.len() > 1).then_some("two handed over"));
    cases.extend((before.state.line.waiting == MAX_USERS).then_some("a line of 32"));
    cases
}

/// What the call was to its own user's place in the line.
fn of_caller(before: &Machine, after: &Machine, call: &Call, answer: &Answer) -> Vec<&'static str> {
    let mut waiters = before.state.line.waiters();
    let waited = waiters.find(|waiter| waiter.user == call.user);
    let command = Command::from_code(call.command);
    let by_this = command.and_then(|command| Waiter::by(command, call));
    let mut cases = match (waited, by_this, answer.response) {
        (Some(_), _, 22) => vec!["22 of a waiter"],
        (_, _, 22 | 72) => Vec::new(),
        (None, Some(_), 145) => vec!["W at the hold limit"],
        (None, Some(waiter), 0) if entry_at(before, &waiter).is_none() => {
            vec!["W of what nobody holds"]
        }
        (waited, Some(waiter), 20) if waited == by_this => match waiter.reads {
            true => vec!["L4 waits on"],
            false => vec!["HI waits on"],
        },
        (_, Some(waiter), 20) => joining_cases(after, waited, &waiter),
        (waited, Some(_), 41 | 53) if waited.is_some() && waited == by_this => {
            vec!["L4 of a waiter refused"]
        }
        _ => Vec::new(),
    };
    if waited.is_some() && waited != by_this && !matches!(answer.response, 22 | 72) {
        cases.push(match (&call.command, answer.response) {
            (b"CL", 0) => "CL of a waiter",
            (_, 0) => "another call of a waiter",
            _ => "another call of a waiter, refused",
        });
    }
    cases
}

/// Who joins a line, and which he has left for it.
fn joining_cases(after: &Machine, waited: Option<Waiter>, waiter: &Waiter) -> Vec<&'static str> {
    let is_there = after.records().contains_key(&(waiter.file, waiter.isn));
    let mut cases = match (waiter.reads, is_there) {
        (false, _) => vec!["HI joins a line"],
        (true, true) => vec!["L4 joins a line"],
        (true, false) => vec!["L4 joins the line of an ISN without a record"],
    };
    if let Some(waited) = waited {
        cases.push(match waited.is_for(waiter.file, waiter.isn) {
            true => "W by the other command",
            false => "W for another record",
        });
    }
    cases.extend(closes_ring(after, waiter).then_some("W closes a ring"));
    cases
}

/// Whether the holder of what somebody waits for waits for something of his.
fn closes_ring(after: &Machine, waiter: &Waiter) -> bool {
    let holder_of = |waiter: &Waiter| entry_at(after, waiter).map(|entry| entry.user);
    let holder = holder_of(waiter);
    let mut waiters = after.state.line.waiters();
    waiters.any(|placed| Some(placed.user) == holder && holder_of(&placed) == Some(waiter.user))
}

/// Whether a waiter got the hold, and not by another call of his.
fn is_handed_over(before: &Machine, after: &Machine, waiter: &Waiter, call: &Call) -> bool {
    let command = Command::from_code(call.command);
    let is_another_call = waiter.user == call.user
        && command.and_then(|command| Waiter::by(command, call)) != Some(*waiter);
    let holds = |machine| entry_at(machine, waiter).is_some_and(|entry| entry.user == waiter.user);
    !is_another_call && holds(after) && !holds(before)
}

fn of_hand_over(
    before: &Machine,
    after: &Machine,
    waiter: &Waiter,
    call: &Call,
    answer: &Answer,
) -> Vec<&'static str> {
    let Some(entry) = entry_at(before, waiter) else {
        return Vec::new();
    };
    let receiver = user(before, waiter.user);
    let by_holder = entry.user == call.user && matches!(answer.response, 0 | 9);
    let mut cases = vec![match &call.command {
        b"RI" if by_holder && call.isn != 0 => "handed over by RI of one ISN",
        b"RI" if by_holder => "handed over by RI of ISN 0",
        b"ET" if by_holder && answer.response == 0 => "handed over by ET",
        b"BT" if by_holder && answer.response == 0 => "handed over by BT",
        b"OP" | b"CL" if by_holder && !user(before, call.user).is_late(after.state.clock) => {
            "handed over by OP or CL"
        }
        _ => "handed over by the clock",
    }];
    cases.push(match receiver.in_transaction {
        true => "handed over, a transaction open",
        false => "handed over, none open",
    });
    let mut line = after.state.line.waiters();
    let others = line.any(|placed| placed.is_for(waiter.file, waiter.isn));
    let ended_by_et = &call.command == b"ET" && by_holder;
    let held = hold::count_of(after.entries(), waiter.user);
    let found = [
        (others, "handed over, others wait on"),
        (waiter.user == call.user, "handed over to the caller"),
        (
            is_handed_on(before, after, waiter, &entry),
            "handed over and handed on",
        ),
        (
            entry.changed && entry.existed && !ended_by_et,
            "handed over, the image put back",
        ),
        (
            entry.changed && !entry.existed && !ended_by_et,
            "handed over, the ISN emptied",
        ),
        (
            held > usize::from(receiver.hold_limit),
            "handed over past the hold limit",
        ),
        (receiver.overdue, "handed over to a marked user"),
        (receiver.access_only, "handed over to an access-only user"),
    ];
    cases.extend(found.iter().filter(|(so, _)| *so).map(|(_, case)| *case));
    cases
}

/// Whether somebody before him in the line had the hold in between: one whom the clock backs out after the holder.
fn is_handed_on(before: &Machine, after: &Machine, waiter: &Waiter, entry: &Entry) -> bool {
    let line = before.state.line.waiters();
    let mut before_him = line.take_while(|placed| placed != waiter);
    before_him.any(|placed| {
        let marked = |machine| user(machine, placed.user).overdue;
        placed.is_for(waiter.file, waiter.isn)
            && placed.user > entry.user
            && !waits_on(after, &placed)
            && marked(after)
            && !marked(before)
    })
}

/// What alone keeps a state from being well made: one waiter, or how many there are.
pub fn of_bad_line(before: &Machine) -> Vec<&'static str> {
    let waiters: Vec<Waiter> = before.state.line.waiters().collect();
    if before.state.line.waiting > waiters.len() {
        let mut repaired = before.clone();
        repaired.state.line.waiting = waiters.len();
        let case = is_well_made(&repaired).then_some("more waiters than users");
        return case.into_iter().collect();
    }
    let is_bad = |place: &usize| {
        let mut repaired = before.clone();
        let line = &mut repaired.state.line;
        line.places.copy_within(place + 1.., *place);
        line.waiting -= 1;
        is_well_made(&repaired)
    };
    let bad = (0..waiters.len()).find(is_bad);
    let case = |place: usize| bad_waiter(before, &waiters, &waiters[place]);
    bad.map(case).into_iter().collect()
}

fn is_well_made(machine: &Machine) -> bool {
    state::is_well_made(&machine.state, machine.capacity, &machine.queue)
}

fn bad_waiter(before: &Machine, waiters: &[Waiter], waiter: &Waiter) -> &'static str {
    let mut same = waiters.iter().filter(|placed| placed.user == waiter.user);
    match waiter.user {
        0 => "a waiter of user 0",
        33.. => "a waiter above 32",
        number if !user(before, number).session => "a waiter without a session",
        _ if same.nth(1).is_some() => "a waiter twice",
        _ if entry_at(before, waiter).is_none() => "a waiter for what nobody holds",
        _ => "a waiter for what he holds",
    }
}
