//! Runs a list beside the journal and checks requirement 3, and a few cheap truths after each call.

use crate::fields;
use crate::journal::{Journal, Records};
use crate::line::Waiter;
use crate::machine::Machine;
use crate::random::{self, List, ListCall};
use crate::state::{self, Answer, Call, Command, User};
use crate::waiting;
use std::collections::BTreeMap;
use std::ops::Range;

/// What every lent byte is at first: no null, no digit, no first byte of a record.
pub const FILL: u8 = 0xA5;

/// How often each response came. 113 has two rows: "113 (range)" is ISN 0 or above highest, "113 (record)" no record
/// or one there.
pub type Counts = BTreeMap<String, u64>;

/// The labels that random lists reach: every response but 10, 11 and 12, and 113 by each of its rows.
pub const REACHED: [&str; 23] = [
    "0",
    "3",
    "9",
    "17",
    "20",
    "22",
    "29",
    "41",
    "44",
    "47",
    "53",
    "55",
    "70",
    "72",
    "75",
    "113 (range)",
    "113 (record)",
    "144",
    "145",
    "146",
    "198",
    "211",
    "212",
];

/// One line a label: how often it came, 0 where it did not.
pub fn counts_text(counts: &Counts) -> String {
    REACHED
        .iter()
        .map(|label| format!("{label:>12} {:>9}\n", counts.get(*label).unwrap_or(&0)))
        .collect()
}

/// Sets up the nucleus of a list.
pub fn machine(list: &List) -> Result<Machine, String> {
    Machine::with_sizes(
        &list.table,
        list.capacity,
        list.store,
        list.queue,
        list.images,
        FILL,
    )
    .map_err(|response| format!("set-up answers {response}"))
}

/// The answer of each call with the record buffer after it.
pub type Answers = Vec<(Answer, Vec<u8>)>;

/// Runs a list; gives its answers and the nucleus at the end.
pub fn run(list: &List) -> Result<(Answers, Machine), String> {
    let mut machine = machine(list)?;
    let mut answer = |list_call: &ListCall| {
        let mut record = list_call.record.clone();
        let answer = machine.call(&list_call.call, &list_call.format, &mut record);
        (answer, record)
    };
    let answers = list.calls.iter().map(&mut answer).collect();
    Ok((answers, machine))
}

/// Runs a list and compares; counts its responses. The error says what differs after which call.
pub fn check_list(list: &List, counts: &mut Counts) -> Result<(), String> {
    let mut machine = machine(list)?;
    let mut journal = Journal::new(&list.table).ok_or("the journal refuses the table")?;
    for (place, list_call) in list.calls.iter().enumerate() {
        let at = |error: String| format!("seed {}, call {}: {error}", list.seed, place + 1);
        let (before, answer) = checked_call(&mut machine, list_call).map_err(at)?;
        let ListCall {
            call,
            format,
            record,
        } = list_call;
        journal.feed(call, format, record, answer.response, answer.isn);
        *counts.entry(label(&machine, call, &answer)).or_default() += 1;
        waiting::check_call(&before, &machine, call, &answer, &journal).map_err(at)?;
        compare(&machine, &journal).map_err(at)?;
    }
    let at_end = |error: String| format!("seed {}: {error}", list.seed);
    check_back_outs(&machine, &journal).map_err(at_end)?;
    check_committed(&machine).map_err(at_end)
}

/// "For every list of calls, a `C` reading is what backing all users out at that moment would leave", in several orders of
/// the back-outs.
pub fn check_committed(machine: &Machine) -> Result<(), String> {
    let mut backed_out = Vec::new();
    for order in orders(&machine.in_transaction()) {
        let mut machine = machine.clone();
        for user in &order {
            machine.call(&bt_of(*user), &[], &mut []);
        }
        backed_out.push((order, machine.records()));
    }
    for reader in readers(machine) {
        let found = committed_records(machine, reader)?;
        let differs = |(_, expected): &&(Vec<u8>, Records)| found != *expected;
        if let Some((order, expected)) = backed_out.iter().find(differs) {
            return Err(format!(
                "user {reader} reads {found:02X?}, and BT of {order:?} leaves {expected:02X?}"
            ));
        }
    }
    Ok(())
}

/// A user whom no random list has.
const STRANGER: u8 = 31;

/// Who reads: a stranger, and those in a transaction who are not ready.
fn readers(machine: &Machine) -> Vec<u8> {
    let mut readers = machine.in_transaction();
    readers.retain(|user| !machine.state.users[usize::from(*user) - 1].ready);
    readers.push(STRANGER);
    readers
}

/// What `C` readings of a user show at every ISN. The error: one is answered otherwise than by a record or 113, or the part
/// is another, or something but the reader's session and his place in the line is changed.
fn committed_records(machine: &Machine, reader: u8) -> Result<Records, String> {
    let mut records = Records::new();
    let mut reading = machine.clone();
    for file in machine.state.definition.used_files() {
        let fields: Vec<usize> = (0..file.used_fields().len()).collect();
        let format = random::format_of(file, &fields);
        for isn in 0..=file.max_isn + 1 {
            let mut content = vec![0; file.record_length()];
            let call = committed_reading(reader, file.number, isn);
            let answer = reading.call(&call, &format, &mut content);
            let read = &content[..answer.quantity];
            if !matches!(answer.response, 0 | 113) || read != machine.committed(file.number, isn) {
                return Err(format!("{call:?} answers {answer:?} with {read:02X?}"));
            }
            if answer.response == 0 {
                records.insert((file.number, isn), content);
            }
        }
    }
    let mut expected = machine.clone();
    open_session(&mut expected.state.users[usize::from(reader) - 1]);
    expected.state.line.leave(reader);
    match reading == expected {
        true => Ok(records),
        false => Err(format!("readings of user {reader} change something")),
    }
}

fn committed_reading(user: u8, file: u8, isn: u16) -> Call {
    Call {
        command: *b"L1",
        option: b'C',
        user,
        file,
        isn,
        limit: 0,
        clock: 0,
    }
}

pub fn label(machine: &Machine, call: &Call, answer: &Answer) -> String {
    if answer.response != 113 {
        return answer.response.to_string();
    }
    let max_isn = machine
        .state
        .definition
        .used_files()
        .iter()
        .find(|file| file.number == call.file)
        .map_or(0, |file| file.max_isn);
    let out_of_range = call.isn == 0 || call.isn > max_isn;
    let row = if out_of_range { "range" } else { "record" };
    format!("113 ({row})")
}

/// Makes the call and checks what holds of every call on a well made state. Gives the nucleus before it too.
fn checked_call(machine: &mut Machine, list_call: &ListCall) -> Result<(Machine, Answer), String> {
    let before = machine.clone();
    let mut record = list_call.record.clone();
    let answer = machine.call(&list_call.call, &list_call.format, &mut record);
    check_call(&before, machine, list_call, &answer, &record)?;
    Ok((before, answer))
}

/// A response of a random list is none of 10, 11, 12; the state stays well made; the answer of a refused call is
/// 0, 0, 0 and it leaves what its row says; record buffer bytes past what is read stay; and a few truths of each answer.
pub fn check_call(
    before: &Machine,
    after: &Machine,
    list_call: &ListCall,
    answer: &Answer,
    record: &[u8],
) -> Result<(), String> {
    let ListCall { call, .. } = list_call;
    if matches!(answer.response, 10..=12) {
        return Err(format!("{answer:?}"));
    }
    if !state::is_well_made(&after.state, after.capacity, &after.queue) {
        return Err(format!("{answer:?} leaves a state that is not well made"));
    }
    let reads = matches!(&call.command, b"L1" | b"L4" | b"RE") && answer.response == 0;
    let written = if reads { answer.quantity } else { 0 };
    if record[written..] != list_call.record[written..] {
        return Err(format!("{answer:?} writes past the quantity"));
    }
    if answer.response == 0 {
        check_holds(before, after, call, answer)
    } else {
        check_refused(before, after, call, answer)?;
        check_limits(after, call, answer)?;
        check_taken(after, list_call, answer)
    }
}

/// After 0: RI, ET and BT count the entries that went, and after HI, L4 and each change the user holds the ISN answered.
fn check_holds(
    before: &Machine,
    after: &Machine,
    call: &Call,
    answer: &Answer,
) -> Result<(), String> {
    let gone = held(before, call.user).saturating_sub(held(after, call.user));
    let holds_it = holder(after, call.file, answer.isn) == Some(call.user);
    let good = match &call.command {
        b"RI" => answer.quantity == gone,
        b"ET" | b"BT" => answer.quantity == gone && held(after, call.user) == 0,
        b"HI" | b"L4" | b"A1" | b"E1" | b"N1" | b"N2" => holds_it,
        _ => true,
    };
    good.then_some(())
        .ok_or(format!("{answer:?} does not fit the hold queue"))
}

/// 20 comes only for one who is in the line then, of a record that another holds; 47, 70 and 75, and 145 for who would wait,
/// only where the limit is met.
fn check_limits(after: &Machine, call: &Call, answer: &Answer) -> Result<(), String> {
    let hold_limit = after
        .state
        .users
        .get(usize::from(call.user).wrapping_sub(1))
        .map_or(0, |user| usize::from(user.hold_limit));
    let met = match answer.response {
        20 => waiter_by(call).is_some_and(|waiter| {
            let holder = holder(after, call.file, call.isn);
            after.state.line.waiters().any(|placed| placed == waiter)
                && holder.is_some_and(|holder| holder != call.user)
        }),
        145 if waiter_by(call).is_some() => held(after, call.user) >= hold_limit,
        47 => held(after, call.user) >= hold_limit,
        70 => after.state.entries == after.capacity,
        75 => no_isn_is_free(after, call.file),
        _ => true,
    };
    met.then_some(())
        .ok_or(format!("{answer:?} before the limit is met"))
}

fn no_isn_is_free(machine: &Machine, number: u8) -> bool {
    let records = machine.records();
    machine
        .state
        .definition
        .used_files()
        .iter()
        .filter(|file| file.number == number)
        .flat_map(|file| 1..=file.max_isn)
        .all(|isn| records.contains_key(&(number, isn)) || holder(machine, number, isn).is_some())
}

/// 198 comes only where another record has one of the values judged, now or after the BT of another user.
fn check_taken(after: &Machine, list_call: &ListCall, answer: &Answer) -> Result<(), String> {
    if answer.response != 198 {
        return Ok(());
    }
    let call = &list_call.call;
    let others = after
        .in_transaction()
        .into_iter()
        .filter(|user| *user != call.user);
    let backed_out = others.map(|user| after_bt(after, user).records());
    let values = judged_values(after, list_call);
    let taken = std::iter::once(after.records())
        .chain(backed_out)
        .any(|records| {
            records.iter().any(|((file, isn), content)| {
                let another = *file == call.file && (&call.command == b"N1" || *isn != call.isn);
                another
                    && values
                        .iter()
                        .any(|(range, value)| content[range.clone()] == value[..])
            })
        });
    taken
        .then_some(())
        .ok_or(format!("{answer:?} for values that are free"))
}

/// What a BT of a user leaves, marked or not.
fn after_bt(machine: &Machine, user: u8) -> Machine {
    let mut unmarked = machine.clone();
    unmarked.state.users[usize::from(user) - 1].overdue = false;
    after_instead(&unmarked, &bt_of(user), *b"BT")
}

/// "One BT, option blank, clock 0."
fn bt_of(user: u8) -> Call {
    Call {
        command: *b"BT",
        option: b' ',
        user,
        file: 0,
        isn: 0,
        limit: 0,
        clock: 0,
    }
}

/// The values of the unique fields that a call judges, in stored form, with their places in a record.
pub fn judged_values(machine: &Machine, list_call: &ListCall) -> Vec<(Range<usize>, Vec<u8>)> {
    let files = machine.state.definition.used_files();
    let Some(file) = files.iter().find(|file| file.number == list_call.call.file) else {
        return Vec::new();
    };
    let elements = fields::elements(file, &list_call.format).unwrap_or_default();
    let mut content = fields::null_record(file);
    fields::replace_named(file, &elements, &list_call.record, &mut content);
    (0..file.used_fields().len())
        .filter(|index| file.fields[*index].is_unique())
        .filter(|index| &list_call.call.command != b"A1" || elements.contains(index))
        .map(|index| {
            (
                file.field_range(index),
                content[file.field_range(index)].to_vec(),
            )
        })
        .collect()
}

fn held(machine: &Machine, user: u8) -> usize {
    machine
        .entries()
        .iter()
        .filter(|entry| entry.user == user)
        .count()
}

fn holder(machine: &Machine, file: u8, isn: u16) -> Option<u8> {
    machine
        .entries()
        .iter()
        .find(|entry| entry.file == file && entry.isn == isn)
        .map(|entry| entry.user)
}

/// Who waits by a call, if it is one that may wait.
fn waiter_by(call: &Call) -> Option<Waiter> {
    Waiter::by(Command::from_code(call.command)?, call)
}

/// Whether a call keeps its user's place in the line.
fn keeps_place(machine: &Machine, call: &Call) -> bool {
    let waiter = waiter_by(call);
    let mut waiters = machine.state.line.waiters();
    waiters.any(|placed| Some(placed) == waiter)
}

/// "As below" is all but the clock, overdue back-outs, the session opened, and the line left or joined. Where nobody is
/// overdue, that leaves the clock, the session and the line; in any case it is what an RE of the same user and clock does, or,
/// where he keeps his place, somebody else's. 9 by OP or CL does what a BT does.
fn check_refused(
    before: &Machine,
    after: &Machine,
    call: &Call,
    answer: &Answer,
) -> Result<(), String> {
    if *answer != Answer::refused(answer.response) {
        return Err(format!("{answer:?} is refused and not 0, 0, 0"));
    }
    let nothing_more = match answer.response {
        22 | 72 => before == after,
        9 if ended_by_9(before, call) => after_instead(before, call, *b"BT") == *after,
        _ => {
            let clocked = match keeps_place(before, call) {
                true => after_clock(before, call, answer),
                false => Some(after_instead(before, call, *b"RE")),
            };
            let joined = |clocked| after_joining(clocked, call, answer) == *after;
            clocked.is_none_or(joined)
                && (answer.response == 9 || nobody_late_leaves_all(before, after, call, answer))
        }
    };
    if !nothing_more {
        return Err(format!("{answer:?} changes more than its row allows"));
    }
    Ok(())
}

/// Whether 9 comes because of OP or CL in a transaction, and of no mark: then the call does what a BT does.
fn ended_by_9(before: &Machine, call: &Call) -> bool {
    let clock = before.state.clock.max(call.clock);
    let caller = &before.state.users[usize::from(call.user) - 1];
    caller.in_transaction && !caller.overdue && !caller.is_late(clock)
}

/// What another command of the same user and clock leaves, access-only or not.
fn after_instead(before: &Machine, call: &Call, command: [u8; 2]) -> Machine {
    let mut machine = before.clone();
    let index = usize::from(call.user) - 1;
    let caller = before.state.users[index];
    machine.state.users[index].access_only = false;
    let other = Call {
        command,
        option: b' ',
        ..*call
    };
    machine.call(&other, &[], &mut [0; 64]);
    let opened = !caller.session && machine.state.users[index].session;
    machine.state.users[index].access_only = caller.access_only && !opened;
    machine
}

/// What the clock of a call leaves of a user who keeps his place in the line: an RE of somebody whom it does not touch, with
/// the caller's mark cleared by 9. None where the clock may touch everybody.
fn after_clock(before: &Machine, call: &Call, answer: &Answer) -> Option<Machine> {
    let is_idle = |(number, user): &(u8, &User)| {
        !user.in_transaction && *number != call.user && !before.state.line.has(*number)
    };
    let (number, idle) = (1u8..).zip(&before.state.users).find(is_idle)?;
    let mut machine = before.clone();
    machine.state.users[usize::from(number) - 1].overdue = false;
    let re = Call {
        command: *b"RE",
        option: b' ',
        user: number,
        ..*call
    };
    machine.call(&re, &[], &mut [0; 64]);
    machine.state.users[usize::from(number) - 1] = *idle;
    machine.state.users[usize::from(call.user) - 1].overdue &= answer.response != 9;
    Some(machine)
}

/// The same with the caller at the line's end, where he is answered 20 and is not in it.
fn after_joining(mut machine: Machine, call: &Call, answer: &Answer) -> Machine {
    let line = &mut machine.state.line;
    if let (20, Some(waiter)) = (answer.response, waiter_by(call)) {
        if line.waiters().all(|placed| placed != waiter) {
            line.places[line.waiting] = waiter.word();
            line.waiting += 1;
        }
    }
    machine
}

fn nobody_late_leaves_all(before: &Machine, after: &Machine, call: &Call, answer: &Answer) -> bool {
    let clock = before.state.clock.max(call.clock);
    if before.state.users.iter().any(|user| user.is_late(clock)) {
        return true;
    }
    let mut expected = before.clone();
    expected.state.clock = clock;
    open_session(&mut expected.state.users[usize::from(call.user) - 1]);
    if !keeps_place(before, call) {
        expected.state.line.leave(call.user);
    }
    after_joining(expected, call, answer) == *after
}

fn open_session(user: &mut User) {
    if !user.session {
        user.session = true;
        user.hold_limit = 64;
        user.time_limit = 900;
        user.sequence = 0;
        user.access_only = false;
    }
}

/// "Equal are, in each file, the ISNs with a record and its bytes"; no unique value is in two records of its file;
/// both have the same users in a transaction, the same holds and the same line.
fn compare(machine: &Machine, journal: &Journal) -> Result<(), String> {
    let nucleus = machine.records();
    let expected = journal.records();
    if nucleus != expected {
        return Err(format!(
            "records differ: nucleus {nucleus:02X?}, journal {expected:02X?}"
        ));
    }
    if machine.in_transaction() != journal.in_transaction() {
        return Err(format!(
            "in a transaction: nucleus {:?}, journal {:?}",
            machine.in_transaction(),
            journal.in_transaction()
        ));
    }
    waiting::compare(machine, journal)?;
    check_unique(machine, &nucleus)
}

/// "No unique value in two records of its file."
fn check_unique(machine: &Machine, records: &Records) -> Result<(), String> {
    for file in machine.state.definition.used_files() {
        for index in 0..file.used_fields().len() {
            if !file.fields[index].is_unique() {
                continue;
            }
            let mut values: Vec<&[u8]> = records
                .iter()
                .filter(|((number, _), _)| *number == file.number)
                .map(|(_, content)| &content[file.field_range(index)])
                .collect();
            let count = values.len();
            values.sort();
            values.dedup();
            if values.len() != count {
                return Err(format!("a unique value twice in file {}", file.number));
            }
        }
    }
    Ok(())
}

/// For every choice of the users in a transaction, in several orders: one BT of each, struck in the journal.
fn check_back_outs(machine: &Machine, journal: &Journal) -> Result<(), String> {
    for users in choices(&journal.in_transaction()) {
        for order in orders(&users) {
            back_out_in_order(&mut machine.clone(), &mut journal.clone(), &order)
                .map_err(|error| format!("after BT of {order:?}: {error}"))?;
        }
    }
    check_brought_in(machine, journal)
}

fn back_out_in_order(
    machine: &mut Machine,
    journal: &mut Journal,
    order: &[u8],
) -> Result<(), String> {
    for user in order {
        let bt = ListCall {
            call: bt_of(*user),
            format: Vec::new(),
            record: Vec::new(),
        };
        let (_, answer) = checked_call(machine, &bt)?;
        if answer.response != 0 {
            return Err(format!("BT of {user} answers {answer:?}"));
        }
        journal.back_out(*user);
        compare(machine, journal)?;
    }
    Ok(())
}

/// BTs hand over, and so bring those who wait into a transaction. BTs of these too change no record, and in the end nothing
/// is held and nobody waits.
fn check_brought_in(machine: &Machine, journal: &Journal) -> Result<(), String> {
    let (mut machine, mut journal) = (machine.clone(), journal.clone());
    let users = machine.in_transaction();
    back_out_in_order(&mut machine, &mut journal, &users)?;
    let records = machine.records();
    while let [brought_in, ..] = machine.in_transaction()[..] {
        back_out_in_order(&mut machine, &mut journal, &[brought_in])
            .map_err(|error| format!("brought in, {error}"))?;
    }
    let is_idle = machine.state.entries == 0 && machine.state.line.waiting == 0;
    match machine.records() == records && is_idle {
        true => Ok(()),
        false => Err(format!("BTs of all leave {:?}", machine.entries())),
    }
}

/// Every choice of users; they are few.
fn choices(users: &[u8]) -> Vec<Vec<u8>> {
    let users = &users[..users.len().min(6)];
    (0..1u32 << users.len())
        .map(|chosen| {
            (0..users.len())
                .filter(|place| chosen >> place & 1 == 1)
                .map(|place| users[place])
                .collect()
        })
        .collect()
}

/// Every order of up to three users; rising, falling and rotated for more.
fn orders(users: &[u8]) -> Vec<Vec<u8>> {
    match *users {
        [] => vec![vec![]],
        [a] => vec![vec![a]],
        [a, b] => vec![vec![a, b], vec![b, a]],
        [a, b, c] => vec![
            vec![a, b, c],
            vec![a, c, b],
            vec![b, a, c],
            vec![b, c, a],
            vec![c, a, b],
            vec![c, b, a],
        ],
        _ => {
            let rising = users.to_vec();
            let falling = users.iter().rev().copied().collect();
            let mut rotated = users.to_vec();
            rotated.rotate_left(2);
            vec![rising, falling, rotated]
        }
    }
}
