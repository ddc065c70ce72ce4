//! Rows 11 and 12, short buffers and states that nobody set up; and random ones, in which no call may panic, touch
//! what is past the sizes, or change more than its answer allows.

mod common;
use common::{file, two_files, GOOD_CALLS};
use second::any_state;
use second::compare;
use second::definition::Definition;
use second::hold::{self, Entry};
use second::line::Waiter;
use second::machine::Machine;
use second::nucleus::set_up;
use second::random::Random;
use second::state::{is_well_made, lent_too_short, Answer, Call, State};
use second::store::store_size;
use second::vectors;

const STORE: usize = 3 * 4 + 2 * 6;
const CAPACITY: u32 = 4;
const IMAGES: usize = 4 * 5;

/// A machine of two files in which user 1 holds and has changed ISN 1 of file 1.
fn machine() -> Machine {
    let mut bench = common::bench();
    bench.run("N1 format=AA. record=31 clock=50 -> 0 1 0 0");
    bench.machine
}

/// Every command, and an unknown one, with a bad option and a bad user too: the response, and all is left as it was.
fn all_calls_answer(machine: &Machine, response: u16) {
    let mut calls: Vec<Call> = GOOD_CALLS
        .iter()
        .map(|text| {
            let listed = call_lists::read_call(1, 1, text).expect(text);
            Call::from(&listed.call)
        })
        .collect();
    let hi = calls[0];
    let command = *b"XX";
    calls.push(Call { command, ..hi });
    calls.push(Call { option: b'H', ..hi });
    calls.push(Call { user: 0, ..hi });
    for mut call in calls {
        call.clock = 100_000;
        let mut after = machine.clone();
        let mut record = [7; 70];
        let answer = after.call(&call, b"AA.", &mut record);
        assert_eq!(answer, Answer::refused(response), "{call:?}");
        assert_eq!(after, *machine, "{call:?}");
        assert_eq!(record, [7; 70]);
    }
}

/// The machine answers neither 11 nor 12.
fn goes_on(machine: &Machine) {
    let hi = call_lists::read_call(1, 1, "HI user=2 isn=2").expect("call");
    let (answer, _, _) = vectors::run_call(&mut machine.clone(), &hi);
    assert!(!matches!(answer.response, 11 | 12), "{answer:?}");
}

// 10 and 11 at set-up

#[test]
fn set_up_answers_11() {
    let answer = |capacity, store, queue, images| {
        let mut store = vec![7; store];
        let mut queue = vec![Entry::default(); queue];
        let mut images = vec![7; images];
        let state = set_up(&two_files(), capacity, &mut store, &mut queue, &mut images);
        if state.is_err() {
            assert!(store.iter().chain(&images).all(|byte| *byte == 7));
        }
        state.err().unwrap_or(0)
    };
    assert_eq!(answer(4, STORE, 4, IMAGES), 0);
    assert_eq!(answer(4, STORE - 1, 4, IMAGES), 11);
    assert_eq!(answer(4, STORE, 3, IMAGES), 11);
    assert_eq!(answer(4, STORE, 4, IMAGES - 1), 11);
    assert_eq!(answer(4, 0, 0, 0), 11);
    for (capacity, expected) in [(0, 11), (1, 0), (256, 0), (257, 11), (u32::MAX, 11)] {
        assert_eq!(
            answer(capacity, STORE, 300, 300 * 5),
            expected,
            "{capacity}"
        );
    }
}

#[test]
fn set_up_answers_10_before_11() {
    let table = common::table(&[file(1, 1)]);
    let answer = set_up(&table, 0, &mut [], &mut [], &mut []);
    assert_eq!(answer.err(), Some(10));
}

// 11 of a call

#[test]
fn r11_short_store() {
    let mut machine = machine();
    machine.store.pop();
    all_calls_answer(&machine, 11);
    machine.store.clear();
    all_calls_answer(&machine, 11);
}

#[test]
fn r11_short_queue() {
    let mut machine = machine();
    machine.queue.pop();
    all_calls_answer(&machine, 11);
    machine.queue.clear();
    all_calls_answer(&machine, 11);
}

#[test]
fn r11_short_images() {
    let mut machine = machine();
    machine.images.pop();
    all_calls_answer(&machine, 11);
    machine.images.clear();
    all_calls_answer(&machine, 11);
}

#[test]
fn r11_capacity() {
    for capacity in [0, 257, u32::MAX] {
        let mut machine = machine();
        machine.capacity = capacity;
        machine.queue.resize(300, Entry::default());
        machine.images.resize(300 * 5, 0);
        all_calls_answer(&machine, 11);
    }
}

#[test]
fn r11_before_12() {
    let mut machine = machine();
    machine.state.users[0].session = false;
    all_calls_answer(&machine, 12);
    machine.store.pop();
    all_calls_answer(&machine, 11);
}

#[test]
fn larger_buffers_are_good() {
    let mut machine = machine();
    machine.store.push(7);
    machine.queue.push(Entry::default());
    machine.images.push(7);
    goes_on(&machine);
}

// 12 of a call

#[test]
fn r12_invalid_table_before_11() {
    let mut machine = machine();
    machine.state.definition.files[0].fields[0].format = b'X';
    all_calls_answer(&machine, 12);
    machine.store.clear();
    machine.queue.clear();
    machine.images.clear();
    for capacity in [0, 257] {
        machine.capacity = capacity;
        all_calls_answer(&machine, 12);
    }
}

#[test]
fn r12_invalid_table() {
    type Break = fn(&mut Definition);
    let breaks: [Break; 14] = [
        |table| table.count = 0,
        |table| table.count = 3,
        |table| table.count = 17,
        |table| table.count = 255,
        |table| table.files[1].number = 1,
        |table| table.files[1].number = 0,
        |table| table.files[1].number = 17,
        |table| table.files[0].max_isn = 0,
        |table| table.files[0].max_isn = 4096,
        |table| table.files[0].count = 0,
        |table| table.files[0].count = 17,
        |table| table.files[0].fields[1].name = *b"AA",
        |table| table.files[0].fields[0].length = 254,
        |table| table.files[1].fields[1].option = 0,
    ];
    for break_rule in breaks {
        let mut machine = machine();
        break_rule(&mut machine.state.definition);
        all_calls_answer(&machine, 12);
    }
}

#[test]
fn r12_entries() {
    type Break = fn(&mut Machine);
    let breaks: [Break; 12] = [
        |machine| machine.state.entries = CAPACITY + 1,
        |machine| machine.state.entries = u32::MAX,
        |machine| machine.queue[1] = machine.queue[0],
        |machine| machine.queue[1].file = 3,
        |machine| machine.queue[1].file = 0,
        |machine| machine.queue[1].isn = 0,
        |machine| machine.queue[1].isn = 4,
        |machine| machine.queue[1].user = 0,
        |machine| machine.queue[1].user = 33,
        |machine| machine.queue[1].user = 255,
        |machine| machine.queue[1].user = 2,
        |machine| machine.state.users[0].in_transaction = false,
    ];
    for break_rule in breaks {
        let mut machine = machine();
        machine.queue[1] = Entry {
            isn: 3,
            ..machine.queue[0]
        };
        machine.state.entries = 2;
        goes_on(&machine);
        break_rule(&mut machine);
        all_calls_answer(&machine, 12);
    }
}

#[test]
fn r12_more_entries_than_capacity() {
    let mut machine = machine();
    machine.queue[1] = Entry {
        isn: 3,
        ..machine.queue[0]
    };
    machine.state.entries = 2;
    machine.capacity = 1;
    all_calls_answer(&machine, 12);
}

#[test]
fn r12_users() {
    type Break = fn(&mut State);
    let breaks: [Break; 5] = [
        |state| state.users[0].session = false,
        |state| state.users[0].begun = 51,
        |state| state.clock = 49,
        |state| state.users[31].et_length = 65,
        |state| {
            state.users[7].in_transaction = true;
        },
    ];
    for break_rule in breaks {
        let mut machine = machine();
        goes_on(&machine);
        break_rule(&mut machine.state);
        all_calls_answer(&machine, 12);
    }
}

/// User 2 holds ISN 2 and waits for user 1's ISN 1; user 3 waits behind him.
fn waiting_machine() -> Machine {
    let mut bench = common::bench();
    bench.run(
        "HI isn=1 -> 0 1 0 0
         HI user=2 isn=2 -> 0 2 0 0
         HI option=W isn=1 -> 20 0 0 0
         L4 user=3 option=W isn=1 format=AA. length=1 -> 20 0 0 0",
    );
    bench.machine
}

fn word(user: u8, file: u8, isn: u16) -> u64 {
    let reads = false;
    let waiter = Waiter {
        user,
        file,
        isn,
        reads,
    };
    waiter.word()
}

#[test]
fn r12_line() {
    type Break = fn(&mut Machine);
    let breaks: [Break; 15] = [
        |machine| machine.state.line.waiting = 3,
        |machine| machine.state.line.waiting = 33,
        |machine| machine.state.line.waiting = usize::MAX,
        |machine| machine.state.line.places[0] = 0,
        |machine| machine.state.line.places[0] = word(0, 1, 1),
        |machine| machine.state.line.places[0] = word(33, 1, 1),
        |machine| machine.state.line.places[0] = word(255, 1, 1),
        // No session; his own record; nobody's; no ISN; no file.
        |machine| machine.state.line.places[0] = word(4, 1, 1),
        |machine| machine.state.line.places[0] = word(1, 1, 1),
        |machine| machine.state.line.places[0] = word(2, 1, 2),
        |machine| machine.state.line.places[0] = word(2, 1, 3),
        |machine| machine.state.line.places[0] = word(2, 1, 0),
        |machine| machine.state.line.places[0] = word(2, 2, 1),
        // Twice, of one record and of two.
        |machine| machine.state.line.places[0] = machine.state.line.places[1],
        |machine| machine.state.line.places[0] = word(3, 1, 2),
    ];
    for break_rule in breaks {
        let mut machine = waiting_machine();
        goes_on(&machine);
        break_rule(&mut machine);
        all_calls_answer(&machine, 12);
    }
    let mut machine = waiting_machine();
    machine.state.users[2].session = false;
    all_calls_answer(&machine, 12);
    let mut machine = waiting_machine();
    machine.state.entries = 0;
    all_calls_answer(&machine, 12);
}

/// What is not asked of a waiter.
#[test]
fn r12_line_not() {
    type Change = fn(&mut Machine);
    let changes: [Change; 8] = [
        |machine| machine.state.line.waiting = 0,
        |machine| machine.state.line.waiting = 1,
        |machine| machine.state.line.places[2..].fill(u64::MAX),
        |machine| machine.state.line.places[0] |= 0xFFFF_FFFF_0000_0000,
        |machine| machine.state.line.places[0] = word(1, 1, 2),
        |machine| machine.state.users[1].overdue = true,
        |machine| machine.state.users[2].access_only = true,
        |machine| machine.state.users[2].hold_limit = 0,
    ];
    for change in changes {
        let mut machine = waiting_machine();
        change(&mut machine);
        goes_on(&machine);
    }
}

#[test]
fn r12_last_assigned() {
    for (place, greatest) in [(0, 3), (1, 2)] {
        let mut machine = machine();
        machine.state.last_assigned[place] = greatest;
        goes_on(&machine);
        machine.state.last_assigned[place] = greatest + 1;
        all_calls_answer(&machine, 12);
        machine.state.last_assigned[place] = u16::MAX;
        all_calls_answer(&machine, 12);
    }
}

/// What "well made" says nothing of.
#[test]
fn r12_not() {
    type Change = fn(&mut Machine);
    let changes: [Change; 12] = [
        |machine| machine.state.users[0].hold_limit = 0,
        |machine| machine.state.users[0].time_limit = 0,
        |machine| machine.state.users[0].access_only = true,
        |machine| machine.state.users[0].overdue = true,
        |machine| machine.state.users[31].overdue = true,
        |machine| machine.state.users[5].begun = u32::MAX,
        |machine| machine.state.last_assigned[2] = u16::MAX,
        |machine| machine.queue[0].changed = false,
        |machine| machine.queue[1].user = 255,
        |machine| machine.state.entries = 0,
        |machine| machine.store.fill(1),
        |machine| machine.state.definition.files[2].count = 255,
    ];
    for change in changes {
        let mut machine = machine();
        change(&mut machine);
        goes_on(&machine);
    }
}

// Random states

/// Random calls on random states and buffers, half of them aimed: no panic, and what must hold of each call.
#[test]
fn random_states() {
    let mut random = Random::new(58);
    let mut refused = [0; 2];
    let mut done = 0;
    for place in 0..150_000 {
        let (before, good, list_call) = match place % 4 {
            0 => any_state::aimed(&mut random),
            1 => any_state::aimed_at_line(&mut random),
            _ => {
                let (before, good) = any_state::machine(&mut random);
                let list_call = any_state::call(&mut random, &before);
                (before, good, list_call)
            }
        };
        let mut after = before.clone();
        let mut record = list_call.record.clone();
        let answer = after.call(&list_call.call, &list_call.format, &mut record);
        match answer.response {
            11 | 12 => {
                refused[usize::from(answer.response - 11)] += 1;
                assert!(!good, "{answer:?} for a good state");
                assert_eq!(answer, Answer::refused(answer.response));
                assert_eq!((&after, &record), (&before, &list_call.record));
            }
            _ => {
                done += usize::from(answer.response == 0);
                compare::check_call(&before, &after, &list_call, &answer, &record)
                    .expect("a good call");
                check_sizes(&before, &after);
                check_others(&before, &after, &list_call.call, &answer);
            }
        }
    }
    println!("11: {}, 12: {}, 0: {done}", refused[0], refused[1]);
    assert!(refused[0] > 1000 && refused[1] > 1000 && done > 1000);
}

/// "Bytes and entries past these sizes are never touched."
fn check_sizes(before: &Machine, after: &Machine) {
    let definition = &before.state.definition;
    let store = store_size(definition);
    let queue = before.capacity as usize;
    let images = queue * definition.greatest_record_length();
    assert!(!lent_too_short(
        definition,
        before.capacity,
        &before.store,
        &before.queue,
        &before.images
    ));
    assert!(is_well_made(&before.state, before.capacity, &before.queue));
    assert_eq!(before.store[store..], after.store[store..]);
    assert_eq!(before.queue[queue..], after.queue[queue..]);
    assert_eq!(before.images[images..], after.images[images..]);
}

/// An entry of the machine, with its image where that is not free.
fn entries_with_images(machine: &Machine, of: impl Fn(u8) -> bool) -> Vec<(Entry, Vec<u8>)> {
    let definition = &machine.state.definition;
    let length = definition.greatest_record_length();
    let mut found = Vec::new();
    for (place, entry) in machine.queue[..machine.state.entries as usize]
        .iter()
        .enumerate()
    {
        let file = definition.file_index(entry.file).expect("defined");
        let width = definition.files[file].record_length();
        let image = match entry.changed && entry.existed {
            true => machine.images[place * length..place * length + width].to_vec(),
            false => vec![],
        };
        if of(entry.user) {
            found.push((*entry, image));
        }
    }
    found
}

/// Users who neither call nor are late keep their entries and images, in order, and the records they hold, and get nothing
/// but what is handed over to them; records that nobody of the others holds change only at the ISN answered.
fn check_others(before: &Machine, after: &Machine, call: &Call, answer: &Answer) {
    let clock = before.state.clock.max(call.clock);
    let is_late = |user: u8| before.state.users[usize::from(user) - 1].is_late(clock);
    let bystander = |user: u8| user != call.user && !is_late(user);
    let kept = entries_with_images(before, bystander);
    let found = entries_with_images(after, bystander);
    let (found, handed_over) = found.split_at(kept.len());
    assert_eq!(kept, found);
    for (entry, _) in handed_over {
        let mut waiters = before.state.line.waiters();
        assert!(
            waiters.any(|waiter| waiter.user == entry.user && waiter.is_for(entry.file, entry.isn))
        );
        assert!(!after.state.line.has(entry.user) && !entry.changed);
        let holder = hold::holder(before.entries(), entry.file, entry.isn).expect("held");
        assert!(!bystander(holder), "{call:?} {answer:?}");
    }
    let mut may_change: Vec<(u8, u16)> = before.queue[..before.state.entries as usize]
        .iter()
        .filter(|entry| !bystander(entry.user))
        .map(|entry| (entry.file, entry.isn))
        .collect();
    may_change.push((call.file, answer.isn));
    let kept = |machine: &Machine| {
        let mut records = machine.records();
        records.retain(|place, _| !may_change.contains(place));
        records
    };
    assert_eq!(kept(before), kept(after), "{call:?} {answer:?}");
}
