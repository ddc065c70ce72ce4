//! What holds of the line after each call of a list: it is the journal's, nobody is overtaken, and whoever waits goes from
//! the line in three ways only.

use crate::hold;
use crate::journal::{Hold, Journal, Place};
use crate::line::{Line, Waiter};
use crate::machine::Machine;
use crate::state::{Answer, Call, Command, User};

/// "A user with k others before him has had the hold, or has left, or been backed out, after k + 1 holders have let go." For
/// one call, of everybody who waited before it. The journal was fed the call, and says how often a record was let go.
pub fn check_call(
    before: &Machine,
    after: &Machine,
    call: &Call,
    answer: &Answer,
    journal: &Journal,
) -> Result<(), String> {
    for waiter in before.state.line.waiters() {
        let still_waits = after.state.line.waiters().any(|placed| placed == waiter);
        let good = match still_waits {
            true => {
                let let_gos = journal.let_gos(waiter.file, waiter.isn);
                let left_before_him = before_him(&after.state.line, &waiter);
                let_gos + left_before_him <= before_him(&before.state.line, &waiter)
            }
            false => may_go(before, after, &waiter, call, answer),
        };
        if !good {
            let how = if still_waits { "is overtaken" } else { "goes" };
            return Err(format!("{answer:?}: {waiter:?} {how}"));
        }
    }
    Ok(())
}

/// How many wait for his record before him.
fn before_him(line: &Line, waiter: &Waiter) -> usize {
    let before = line.waiters().take_while(|placed| placed != waiter);
    before
        .filter(|placed| placed.is_for(waiter.file, waiter.isn))
        .count()
}

/// He gets the hold, makes another call, or is backed out.
fn may_go(
    before: &Machine,
    after: &Machine,
    waiter: &Waiter,
    call: &Call,
    answer: &Answer,
) -> bool {
    let user = |machine: &Machine| machine.state.users[usize::from(waiter.user) - 1];
    let is_his = call.user == waiter.user && !matches!(answer.response, 11 | 12 | 22 | 72);
    let by_this = Command::from_code(call.command).and_then(|command| Waiter::by(command, call));
    let is_another_call = is_his && by_this != Some(*waiter);
    let has_the_hold = hold::holder(after.entries(), waiter.file, waiter.isn) == Some(waiter.user);
    let is_marked = user(after).overdue && !user(before).overdue;
    let is_told = is_his && answer.response == 9;
    is_another_call || has_the_hold || is_marked || is_told
}

/// The journal "keeps holds and lines by these rules": both have the same holds, the same line, and the same starts. And what
/// no list leaves: more holds than their user's limit, a waiter who is marked, ready or access-only.
pub fn compare(machine: &Machine, journal: &Journal) -> Result<(), String> {
    let holds: Vec<Hold> = machine.entries().iter().map(hold_of).collect();
    if holds != journal.holds() {
        let expected = journal.holds();
        return Err(format!("holds: nucleus {holds:?}, journal {expected:?}"));
    }
    let line: Vec<Place> = machine.state.line.waiters().map(place_of).collect();
    if line != journal.line() {
        let expected = journal.line();
        return Err(format!("line: nucleus {line:?}, journal {expected:?}"));
    }
    for (number, user) in (1u8..).zip(&machine.state.users) {
        check_user(machine, journal, number, user)
            .map_err(|error| format!("user {number}: {error}"))?;
    }
    Ok(())
}

fn hold_of(entry: &hold::Entry) -> Hold {
    Hold {
        user: entry.user,
        file: entry.file,
        isn: entry.isn,
        changed: entry.changed,
    }
}

fn place_of(waiter: Waiter) -> Place {
    Place {
        user: waiter.user,
        command: match waiter.reads {
            true => Command::L4,
            false => Command::Hi,
        },
        file: waiter.file,
        isn: waiter.isn,
    }
}

fn check_user(machine: &Machine, journal: &Journal, number: u8, user: &User) -> Result<(), String> {
    let begun = user.in_transaction.then_some(user.begun);
    if begun != journal.begun(number) {
        let expected = journal.begun(number);
        return Err(format!("begun: nucleus {begun:?}, journal {expected:?}"));
    }
    let held = hold::count_of(machine.entries(), number);
    if held > 0 && held > usize::from(user.hold_limit) {
        return Err(format!("{held} holds"));
    }
    let is_barred = user.overdue || user.ready || user.access_only;
    if machine.state.line.has(number) && is_barred {
        return Err(format!("waits, and is {user:?}"));
    }
    Ok(())
}
