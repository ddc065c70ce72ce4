//! Document 02, No. 1: the line as it is kept, and what is handed over in which order. What the calls answer is in
//! `vectors/waiting.txt`; each call here is checked by the laws of every call too.

mod common;
use common::{field, file, table, Bench};
use second::hold::Entry;
use second::journal::Journal;
use second::line::{Line, Waiter};
use second::machine::Machine;
use second::random::ListCall;
use second::state::MAX_USERS;
use second::{compare, waiting};
use std::collections::HashSet;

/// Four ISNs in one file, and two in another; AA is unique.
fn bench() -> Bench {
    let table = table(&[
        file(1, 4),
        field(b"AA", 1, b'A', b'U'),
        file(2, 2),
        field(b"AA", 1, b'A', b' '),
    ]);
    Bench::new(&table, 6)
}

fn waiter(user: u8, file: u8, isn: u16, reads: bool) -> Waiter {
    Waiter {
        user,
        file,
        isn,
        reads,
    }
}

fn waiters(bench: &Bench) -> Vec<Waiter> {
    bench.machine.state.line.waiters().collect()
}

/// Who holds what, oldest first: user, file and ISN.
fn holds(bench: &Bench) -> Vec<(u8, u8, u16)> {
    let entries = bench.machine.entries().iter();
    entries
        .map(|entry| (entry.user, entry.file, entry.isn))
        .collect()
}

fn entry_of(bench: &Bench, user: u8) -> Entry {
    let mut entries = bench.machine.entries().iter();
    *entries.find(|entry| entry.user == user).expect("an entry")
}

#[test]
fn nobody_waits_at_first() {
    assert_eq!(bench().machine.state.line, Line::EMPTY);
}

/// Each place is a word: user, file, ISN and whether by L4. Leaving closes the gap, and past it nothing is written.
#[test]
fn the_line_is_kept_in_words() {
    let mut bench = bench();
    bench.run(
        "HI user=1 isn=1 -> 0 1 0 0
         HI isn=1 file=2 -> 0 1 0 0
         HI user=2 option=W isn=1 -> 20 0 0 0
         L4 user=3 option=W isn=1 file=2 format=AA. length=1 -> 20 0 0 0
         HI user=4 option=W isn=1 -> 20 0 0 0",
    );
    let words = [0x0001_0102, 0x1_0001_0203, 0x0001_0104];
    let line = &bench.machine.state.line;
    assert_eq!(line.waiting, 3);
    assert_eq!(line.places[..3], words);
    assert!(line.places[3..].iter().all(|word| *word == 0));
    bench.run("RE user=2 -> 0 0 0 0");
    let line = &bench.machine.state.line;
    assert_eq!(line.waiting, 2);
    assert_eq!(line.places[..3], [words[1], words[2], words[2]]);
    bench.run("ET user=1 -> 0 0 2 1");
    let line = &bench.machine.state.line;
    assert_eq!(line.waiting, 0);
    assert_eq!(line.places[..3], [words[1], words[2], words[2]]);
    assert_eq!(holds(&bench), [(4, 1, 1), (3, 2, 1)]);
}

/// What is handed over stands at the queue's end, in the order in which it was let go; not in the old places, and not in the
/// order of the line.
#[test]
fn oldest_entry_first() {
    let held = "HI user=1 isn=1 -> 0 1 0 0
                HI user=9 isn=4 -> 0 4 0 0
                HI user=1 isn=2 -> 0 2 0 0
                HI isn=3 -> 0 3 0 0
                HI user=2 option=W isn=3 -> 20 0 0 0
                HI user=3 option=W isn=1 -> 20 0 0 0
                HI user=4 option=W isn=1 -> 20 0 0 0
                HI user=5 option=W isn=4 -> 20 0 0 0";
    for lets_go in [
        "RI user=1 -> 0 0 3 0",
        "ET user=1 -> 0 0 3 1",
        "BT user=1 -> 0 0 3 0",
        "OP user=1 -> 9 0 0 0",
        "CL user=1 -> 9 0 0 0",
    ] {
        let mut bench = bench();
        bench.run(&format!("{held}\n{lets_go}"));
        assert_eq!(holds(&bench), [(9, 1, 4), (3, 1, 1), (2, 1, 3)]);
        assert_eq!(
            waiters(&bench),
            [waiter(4, 1, 1, false), waiter(5, 1, 4, false)]
        );
    }
    let mut bench = bench();
    bench.run(&format!("{held}\nRI user=1 isn=1 -> 0 1 1 0"));
    assert_eq!(holds(&bench), [(9, 1, 4), (1, 1, 2), (1, 1, 3), (3, 1, 1)]);
}

/// The changed entries stay with RI of ISN 0, and who waits for them waits on.
#[test]
fn ri_hands_over_what_it_drops() {
    let mut bench = bench();
    bench.run(
        "HI isn=1 -> 0 1 0 0
         N2 isn=2 format=AA. record=31 -> 0 2 0 0
         HI user=2 option=W isn=2 -> 20 0 0 0
         HI user=3 option=W isn=1 -> 20 0 0 0
         RI user=1 -> 0 0 1 0",
    );
    assert_eq!(holds(&bench), [(1, 1, 2), (3, 1, 1)]);
    assert_eq!(waiters(&bench), [waiter(2, 1, 2, false)]);
}

/// Users rise in the clock's pass, and each hands over before the next. User 2 gets ISN 1 and loses it with his own ISN 2,
/// which is the older one; user 3 left the line when his time had passed.
#[test]
fn one_pass_of_the_clock() {
    let mut bench = bench();
    bench.run(
        "HI user=3 isn=3 -> 0 3 0 0
         HI user=2 isn=2 -> 0 2 0 0
         HI user=1 isn=1 -> 0 1 0 0
         OP user=4 limit=1000 -> 0 0 0 0
         HI isn=4 -> 0 4 0 0
         HI user=2 option=W isn=1 -> 20 0 0 0
         HI user=3 option=W isn=4 -> 20 0 0 0
         HI user=5 option=W isn=1 -> 20 0 0 0
         HI user=6 option=W isn=2 -> 20 0 0 0
         HI user=7 option=W isn=4 -> 20 0 0 0
         HI user=1 option=W isn=3 -> 20 0 0 0
         RE user=8 clock=901 -> 0 0 0 0",
    );
    assert_eq!(holds(&bench), [(4, 1, 4), (6, 1, 2), (5, 1, 1)]);
    assert_eq!(waiters(&bench), [waiter(7, 1, 4, false)]);
    let marked = |user: usize| bench.machine.state.users[user - 1].overdue;
    let all: Vec<usize> = (1..=MAX_USERS).filter(|user| marked(*user)).collect();
    assert_eq!(all, [1, 2, 3]);
    for user in [5, 6] {
        let receiver = &bench.machine.state.users[user - 1];
        assert!(receiver.in_transaction);
        assert_eq!(receiver.begun, 901);
    }
}

/// "Record there before" is as the ISN is when the hold is handed over, after the images are put back.
#[test]
fn a_new_entry_is_unchanged() {
    let record = "N2 user=1 isn=1 format=AA. record=31 -> 0 1 0 0";
    for (calls, existed) in [
        ("ET user=1 -> 0 0 1 1", true),
        ("BT user=1 -> 0 0 1 0", false),
        ("E1 user=1 isn=1 -> 0 1 0 0\nET -> 0 0 1 1", false),
        ("E1 user=1 isn=1 -> 0 1 0 0\nBT -> 0 0 1 0", false),
        ("RE user=9 clock=901 -> 0 0 0 0", false),
    ] {
        let mut bench = bench();
        let joins = "HI user=2 option=W isn=1 -> 20 0 0 0";
        bench.run(&format!("{record}\n{joins}\n{calls}"));
        let entry = entry_of(&bench, 2);
        assert_eq!((entry.changed, entry.existed), (false, existed), "{calls}");
    }
    let mut bench = bench();
    bench.run(&format!("{record}\nET -> 0 0 1 1"));
    bench.run(
        "E1 user=1 option=H isn=1 -> 0 1 0 0
         HI user=2 option=W isn=1 -> 20 0 0 0
         BT user=1 -> 0 0 1 0",
    );
    let entry = entry_of(&bench, 2);
    assert_eq!((entry.changed, entry.existed), (false, true));
}

/// A user is in one line, so that all 32 can wait at once: each holds one ISN and waits for the next one's.
#[test]
fn a_ring_of_all_users() {
    let table = table(&[file(1, 32), field(b"AA", 1, b'A', b' ')]);
    let mut bench = Bench::new(&table, 32);
    for user in 1..=32 {
        bench.run(&format!("HI user={user} isn={user} -> 0 {user} 0 0"));
    }
    let waiting = |user: u16| format!("HI user={user} option=W isn={}", user % 32 + 1);
    for user in 1..=32 {
        bench.run(&format!("{} -> 20 0 0 0", waiting(user)));
    }
    assert_eq!(bench.machine.state.line.waiting, MAX_USERS);
    let before = bench.machine.clone();
    for user in 1..=32 {
        bench.run(&format!("{} -> 20 0 0 0", waiting(user)));
    }
    assert_eq!(bench.machine, before, "a repeat changes nothing more");
    // Of a full line too, who waits for another record goes to the end.
    bench.run("HI user=1 option=W isn=3 -> 20 0 0 0");
    assert_eq!(waiters(&bench)[31], waiter(1, 1, 3, false));
    bench.run(&format!("{} -> 20 0 0 0", waiting(1)));
    // Where the ring is opened, each gets what he waited for when the next one ends.
    bench.run("ET user=1 -> 0 0 1 1");
    for user in (2..=32).rev() {
        bench.run(&format!("ET user={user} -> 0 0 2 1"));
    }
    assert_eq!(bench.machine.state.line.waiting, 0);
    assert_eq!(bench.machine.state.entries, 0);
}

/// The rules as they are, in states that no list makes: the first in line gets the hold, be he marked, access-only or at his
/// hold limit.
#[test]
fn whoever_is_first_gets_the_hold() {
    type Change = fn(&mut Machine);
    let changes: [(Change, &str); 3] = [
        (
            |machine| machine.state.users[1].overdue = true,
            "HI user=2 option=W isn=1 -> 9 0 0 0",
        ),
        (
            |machine| machine.state.users[1].access_only = true,
            "BT user=2 -> 29 0 0 0",
        ),
        (
            |machine| machine.state.users[1].hold_limit = 0,
            "HI user=2 isn=2 -> 47 0 0 0",
        ),
    ];
    for (change, then) in changes {
        let mut bench = bench();
        bench.run(
            "HI isn=1 -> 0 1 0 0
             HI user=2 option=W isn=1 -> 20 0 0 0",
        );
        change(&mut bench.machine);
        bench.run("ET user=1 -> 0 0 1 1");
        assert_eq!(holds(&bench), [(2, 1, 1)]);
        bench.run(then);
        assert!(bench.machine.state.users[1].in_transaction);
        assert_eq!(holds(&bench), [(2, 1, 1)]);
    }
}

/// A waiter who is at his hold limit, in a state that no list makes, waits on.
#[test]
fn the_limit_is_not_judged_again() {
    let mut bench = bench();
    bench.run(
        "HI isn=1 -> 0 1 0 0
         HI user=2 option=W isn=1 -> 20 0 0 0",
    );
    bench.machine.state.users[1].hold_limit = 0;
    bench.run(
        "HI user=2 option=W isn=1 -> 20 0 0 0
         L4 user=2 option=W isn=1 format=AA. length=1 -> 145 0 0 0
         HI user=2 option=W isn=1 -> 145 0 0 0",
    );
    assert!(waiters(&bench).is_empty());
}

/// The bits of a place that are not looked at decide nothing, and move with it.
#[test]
fn spare_bits_of_a_place() {
    let spare = 0xFFFF_FFFE_0000_0000;
    let mut bench = bench();
    bench.run(
        "HI isn=1 -> 0 1 0 0
         HI user=3 option=W isn=1 -> 20 0 0 0
         HI user=2 option=W isn=1 -> 20 0 0 0",
    );
    bench.machine.state.line.places[1] |= spare;
    bench.run(
        "HI user=2 option=W isn=1 -> 20 0 0 0
         RE user=3 -> 0 0 0 0",
    );
    assert_eq!(bench.machine.state.line.places[0], spare | 0x0001_0102);
    bench.run("ET user=1 -> 0 0 1 1");
    assert_eq!(holds(&bench), [(2, 1, 1)]);
}

// Every order of calls

/// The calls of four users about one ISN, and of two of them about another, at three clocks.
fn alphabet() -> Vec<ListCall> {
    let mut texts = Vec::new();
    for user in 1..=4 {
        for call in ["HI option=W isn=1", "ET", "XX"] {
            texts.push(format!("{call} user={user}"));
        }
    }
    for user in 1..=2 {
        for call in ["HI option=W isn=2", "RI isn=1", "CL"] {
            texts.push(format!("{call} user={user}"));
        }
        texts.push(format!("L4 option=W isn=1 user={user} format=AA. length=1"));
    }
    let mut calls = Vec::new();
    for clock in [0, 901, 1802] {
        for text in &texts {
            let line = format!("{text} clock={clock}");
            let listed = call_lists::read_call(1, 1, &line).expect("a call");
            calls.push(ListCall::from(&listed.call));
        }
    }
    calls
}

/// All that decides anything later; the sequence and what lies past the counts do not.
fn seen(machine: &Machine) -> String {
    let state = &machine.state;
    let users: Vec<_> = state.users[..4]
        .iter()
        .map(|user| {
            let begun = user.in_transaction.then_some(user.begun);
            (user.session, begun, user.overdue)
        })
        .collect();
    let line: Vec<Waiter> = state.line.waiters().collect();
    format!("{} {users:?} {:?} {line:?}", state.clock, machine.entries())
}

/// From the fresh nucleus on, every call after every state that these calls reach: the journal has the same holds, line and
/// starts, nobody is overtaken, and every call keeps the laws of calls.
#[test]
fn in_every_order_of_the_others_calls() {
    let table = table(&[file(1, 2), field(b"AA", 1, b'A', b' ')]);
    let machine = Machine::new(&table, 2, compare::FILL).expect("set-up");
    let journal = Journal::new(&table).expect("a good table");
    let calls = alphabet();
    let mut reached = HashSet::from([seen(&machine)]);
    let mut open = vec![(machine, journal)];
    while let Some((before, journal)) = open.pop() {
        for list_call in &calls {
            let (mut after, mut journal) = (before.clone(), journal.clone());
            let mut record = list_call.record.clone();
            let call = &list_call.call;
            let answer = after.call(call, &list_call.format, &mut record);
            journal.feed(call, &list_call.format, &[], answer.response, answer.isn);
            let checked = compare::check_call(&before, &after, list_call, &answer, &record)
                .and_then(|()| waiting::check_call(&before, &after, call, &answer, &journal))
                .and_then(|()| waiting::compare(&after, &journal));
            if let Err(error) = checked {
                panic!("{} then {call:?}: {error}", seen(&before));
            }
            if reached.insert(seen(&after)) {
                open.push((after, journal));
            }
        }
    }
    println!("{} states, {} calls each", reached.len(), calls.len());
    assert!(reached.len() > 5_000);
}
