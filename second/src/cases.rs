//! Single cases that a comparison must have, so that a wrong rule is seen; and which of them a call was.

mod waiting;

use crate::compare;
use crate::definition::File;
use crate::fields;
use crate::hold;
use crate::machine::Machine;
use crate::random::ListCall;
use crate::responses;
use crate::state::{self, Answer, Call, User};
use crate::store;

/// The cases of single rules.
const RULES: [&str; 59] = [
    "RI of one ISN",
    "RI of one ISN beside an unchanged entry",
    "RI of one ISN beside a changed entry",
    "RI of ISN 0",
    "RI of ISN 0 beside a changed entry",
    "A1 without H, value of a record",
    "A1 without H, value of an image",
    "A1 with H, value of a record",
    "A1 with H, value of an image",
    "A1 beside a doubled value",
    "ET before the last sequence",
    "ET at the last sequence",
    "unknown name beside a doubled one",
    "entry of user 0",
    "entry of a user above 32",
    "entry of a user in no transaction",
    "L4 with bytes",
    "RE with bytes",
    "RE without bytes",
    "L1 of no fields",
    "L4 of no fields",
    "A1 of no fields",
    "A1 of no fields, a value in no stored form",
    "N1 of no fields",
    "N2 of no fields",
    "N1 of no fields, a null taken",
    "N2 of no fields, a null taken",
    "period alone behind names",
    "0 in a packed sign's place",
    "9 in a packed sign's place",
    "packed bytes of another record, stored otherwise",
    "PE in a transaction",
    "PE while ready",
    "PE of an access-only user",
    "211 for an access-only user",
    "9 for a ready user's mark",
    "OP or CL of a ready user",
    "ET of a ready user",
    "ET of a ready user, too much data",
    "BT of a ready user",
    "ready past the time limit",
    "ready in no transaction",
    "C of a changed record",
    "C of an emptied record",
    "C of an added record",
    "C of a record that was added and emptied",
    "C of one's own change",
    "C of an image shorter than the greatest",
    "C of an unchanged hold",
    "C of an unchanged hold, no record",
    "C of a record that nobody holds",
    "C of no record",
    "C of no fields",
    "C of an access-only user",
    "C of a ready user",
    "C of an undefined file",
    "C of an ISN out of range",
    "C with a short record buffer",
    "C behind the back-out of a change",
];

/// The cases of a committed record as a part.
const PARTS: [&str; 8] = [
    "part of the images",
    "part of the store",
    "no part, added",
    "no part, no record",
    "no part, ISN out of range",
    "no part, undefined file",
    "no part, 11",
    "no part, 12",
];

/// The options that are named for some command, and the blank.
const OPTIONS: [u8; 6] = *b" IHACW";

/// The half bytes that are signs.
const SIGNS: std::ops::RangeInclusive<u8> = 0xA..=0xF;

/// All cases: those of single rules, of parts and of the line, each packed sign of a zero and of another number, and each
/// command with each option.
pub fn all() -> Vec<String> {
    let mut all = strings(&[&RULES[..], &PARTS, &waiting::CASES].concat());
    for sign in SIGNS {
        all.extend([true, false].map(|is_zero| sign_case(is_zero, sign)));
    }
    for command in state::codes() {
        all.extend(OPTIONS.map(|option| option_case(command, option)));
        all.push(option_case(command, 0));
    }
    all
}

fn option_case(command: [u8; 2], option: u8) -> String {
    let name = String::from_utf8_lossy(&command).into_owned();
    match option {
        b' ' => format!("{name}, option blank"),
        _ if OPTIONS.contains(&option) => format!("{name}, option {}", char::from(option)),
        _ => format!("{name}, other option"),
    }
}

fn sign_case(is_zero: bool, sign: u8) -> String {
    match is_zero {
        true => format!("packed zero with {sign:X}"),
        false => format!("packed number with {sign:X}"),
    }
}

/// The case that a committed record as a part is.
pub fn of_part(machine: &Machine, file: u8, isn: u16) -> String {
    let (state, definition) = (&machine.state, &machine.state.definition);
    let (store, queue, images) = (&machine.store, &machine.queue, &machine.images);
    let usable = responses::usable_rows(state, machine.capacity, store, queue, images);
    let max_isn = definition
        .file_index(file)
        .map(|index| definition.files[index].max_isn);
    let case = match (usable, max_isn) {
        (Err(response), _) => return format!("no part, {response}"),
        (_, None) => "no part, undefined file",
        (_, Some(max_isn)) if !(1..=max_isn).contains(&isn) => "no part, ISN out of range",
        _ => {
            let place = hold::position(machine.entries(), file, isn);
            let entry = place.map(|place| machine.entries()[place]);
            let changed = entry.is_some_and(|entry| entry.changed);
            match (changed, machine.committed(file, isn)) {
                (true, []) => "no part, added",
                (true, _) => "part of the images",
                (false, []) => "no part, no record",
                (false, _) => "part of the store",
            }
        }
    };
    case.to_string()
}

/// The cases that a call was, by the nucleus before and after it and its answer.
pub fn of(before: &Machine, after: &Machine, list_call: &ListCall, answer: &Answer) -> Vec<String> {
    let call = &list_call.call;
    let known = state::Command::from_code(call.command).is_some();
    let mut cases = match answer.response {
        11 => return Vec::new(),
        12 => return strings(&not_well_made_cases(before)),
        _ if known => vec![option_case(call.command, call.option)],
        _ => Vec::new(),
    };
    cases.extend(strings(&match (&call.command, answer.response) {
        (b"RI", 0) => release_cases(before, call, answer),
        (b"A1", 198) => taken_case(after, list_call),
        (b"A1", 0) => [
            doubled_case(after, list_call),
            unstored_case(after, list_call),
        ]
        .concat(),
        (b"ET", 0) => sequence_case(before, call),
        (b"A1" | b"N1" | b"N2", 41) => name_case(after, list_call),
        (b"L4", 0) if answer.quantity > 0 => vec!["L4 with bytes"],
        (b"RE", 0) if answer.quantity > 0 => vec!["RE with bytes"],
        (b"RE", 0) => vec!["RE without bytes"],
        _ => Vec::new(),
    }));
    cases.extend(strings(&ready_cases(before, after, call, answer)));
    cases.extend(no_fields_case(list_call, answer));
    cases.extend(strings(&committed_cases(before, after, list_call, answer)));
    cases.extend(strings(&waiting::of(before, after, call, answer)));
    if let (b"A1" | b"N1" | b"N2", 0 | 55) = (&call.command, answer.response) {
        cases.extend(packed_cases(after, list_call, answer));
    }
    cases
}

/// The packed values that a call brought: the signs of those that are stored, and a digit where a sign should be.
fn packed_cases(after: &Machine, list_call: &ListCall, answer: &Answer) -> Vec<String> {
    let definition = &after.state.definition;
    let Some(index) = definition.file_index(list_call.call.file) else {
        return Vec::new();
    };
    let file = &definition.files[index];
    let elements = fields::elements(file, &list_call.format).unwrap_or_default();
    let mut cases = Vec::new();
    for (field, value) in fields::values(file, &elements, &list_call.record) {
        let (b'P', Some((last, before))) = (file.fields[field].format, value.split_last()) else {
            continue;
        };
        let sign = last & 0x0F;
        let is_zero = last >> 4 == 0 && before.iter().all(|byte| *byte == 0);
        match answer.response {
            0 => cases.push(sign_case(is_zero, sign)),
            _ if sign < 0x0A => cases.push(format!("{sign} in a packed sign's place")),
            _ => {}
        }
        if answer.response == 0 && is_stored_otherwise(after, file, field, value) {
            cases.push("packed bytes of another record, stored otherwise".to_string());
        }
    }
    cases
}

/// Whether a unique value was brought that a record has byte for byte, in no stored form: it is not taken.
fn is_stored_otherwise(after: &Machine, file: &File, field: usize, value: &[u8]) -> bool {
    let records = after.records();
    let mut of_file = records
        .iter()
        .filter(|((number, _), _)| *number == file.number);
    file.fields[field].is_unique()
        && fields::stored_form(&file.fields[field], value) != value
        && of_file.any(|(_, content)| content[file.field_range(field)] == *value)
}

/// A format buffer that names nothing, or has a period of its own behind its names.
fn no_fields_case(list_call: &ListCall, answer: &Answer) -> Option<String> {
    let name = String::from_utf8_lossy(&list_call.call.command);
    match (&list_call.format[..], answer.response) {
        _ if !matches!(&*name, "L1" | "L4" | "A1" | "N1" | "N2") => None,
        (b".", 0) => Some(format!("{name} of no fields")),
        (b".", 198) => Some(format!("{name} of no fields, a null taken")),
        ([_, _, b',', b'.'], 41) => Some("period alone behind names".to_string()),
        _ => None,
    }
}

fn strings(cases: &[&str]) -> Vec<String> {
    cases.iter().map(|case| case.to_string()).collect()
}

fn release_cases(before: &Machine, call: &Call, answer: &Answer) -> Vec<&'static str> {
    let others = before
        .entries()
        .iter()
        .filter(|entry| entry.user == call.user)
        .filter(|entry| (entry.file, entry.isn) != (call.file, call.isn));
    let beside_changed = others.clone().any(|entry| entry.changed);
    let beside_unchanged = others.clone().any(|entry| !entry.changed);
    let mut cases = Vec::new();
    if call.isn != 0 {
        cases.push("RI of one ISN");
        cases.extend(beside_unchanged.then_some("RI of one ISN beside an unchanged entry"));
        cases.extend(beside_changed.then_some("RI of one ISN beside a changed entry"));
    } else if answer.quantity > 0 {
        cases.push("RI of ISN 0");
        cases.extend(beside_changed.then_some("RI of ISN 0 beside a changed entry"));
    }
    cases
}

/// A value that no other record has is an image's.
fn taken_case(after: &Machine, list_call: &ListCall) -> Vec<&'static str> {
    let call = &list_call.call;
    let values = compare::judged_values(after, list_call);
    let in_a_record = after.records().iter().any(|((file, isn), content)| {
        let has = |(range, value): &(std::ops::Range<usize>, Vec<u8>)| {
            content[range.clone()] == value[..]
        };
        *file == call.file && *isn != call.isn && values.iter().any(has)
    });
    vec![match (call.option == b'H', in_a_record) {
        (false, true) => "A1 without H, value of a record",
        (false, false) => "A1 without H, value of an image",
        (true, true) => "A1 with H, value of a record",
        (true, false) => "A1 with H, value of an image",
    }]
}

/// A unique field that A1 did not name has the value of another record.
fn doubled_case(after: &Machine, list_call: &ListCall) -> Vec<&'static str> {
    let call = &list_call.call;
    let definition = &after.state.definition;
    let Some(index) = definition.file_index(call.file) else {
        return Vec::new();
    };
    let file = &definition.files[index];
    let named = fields::elements(file, &list_call.format).unwrap_or_default();
    let content = store::record(definition, &after.store, index, call.isn);
    let is_doubled = |field: usize| {
        let range = file.field_range(field);
        let records = after.records();
        let mut others = records
            .iter()
            .filter(|((number, isn), _)| *number == call.file && *isn != call.isn);
        file.fields[field].is_unique()
            && !named.contains(&field)
            && others.any(|(_, other)| other[range.clone()] == content[range.clone()])
    };
    match (0..file.used_fields().len()).any(is_doubled) {
        true => vec!["A1 beside a doubled value"],
        false => Vec::new(),
    }
}

/// A1 names no field of a record that has a value in no stored form.
fn unstored_case(after: &Machine, list_call: &ListCall) -> Vec<&'static str> {
    let call = &list_call.call;
    let definition = &after.state.definition;
    let (Some(index), b".") = (definition.file_index(call.file), &list_call.format[..]) else {
        return Vec::new();
    };
    let content = store::record(definition, &after.store, index, call.isn);
    match fields::has_unstored(&definition.files[index], content) {
        true => vec!["A1 of no fields, a value in no stored form"],
        false => Vec::new(),
    }
}

fn sequence_case(before: &Machine, call: &Call) -> Vec<&'static str> {
    let user = before.state.users[usize::from(call.user) - 1];
    match user.sequence {
        _ if !user.session => Vec::new(),
        u32::MAX => vec!["ET at the last sequence"],
        0xFFFF_FFFE => vec!["ET before the last sequence"],
        _ => Vec::new(),
    }
}

/// A format buffer of good form.
fn name_case(after: &Machine, list_call: &ListCall) -> Vec<&'static str> {
    let definition = &after.state.definition;
    let (Some(index), Some((b'.', names))) = (
        definition.file_index(list_call.call.file),
        list_call.format.split_last(),
    ) else {
        return Vec::new();
    };
    let named: Vec<Option<usize>> = names
        .split(|byte| *byte == b',')
        .map(|name| definition.files[index].field_named(name))
        .collect();
    let known: Vec<usize> = named.iter().copied().flatten().collect();
    match known.len() < named.len() && fields::names_twice(&known) {
        true => vec!["unknown name beside a doubled one"],
        false => Vec::new(),
    }
}

/// What alone keeps a state from being well made, if one thing does.
fn not_well_made_cases(before: &Machine) -> Vec<&'static str> {
    [
        holder_cases(before),
        unready_case(before),
        waiting::of_bad_line(before),
    ]
    .concat()
}

/// What alone keeps a state from being well made: an entry of user 0 that would be good as user 1's, one of a user above
/// 32 that would be good as a user's in a transaction, or one of a user who would have to be in a transaction.
fn holder_cases(before: &Machine) -> Vec<&'static str> {
    let mut repaired = before.clone();
    let Some(entries) = repaired.queue.get_mut(..before.state.entries as usize) else {
        return Vec::new();
    };
    let users = &mut repaired.state.users;
    let in_transaction = before.in_transaction().first().copied();
    let mut cases = Vec::new();
    for entry in entries {
        match (entry.user, in_transaction) {
            (0, _) => {
                cases.push("entry of user 0");
                entry.user = 1;
            }
            (33.., Some(user)) => {
                cases.push("entry of a user above 32");
                entry.user = user;
            }
            (1..=32, _) if !users[usize::from(entry.user) - 1].in_transaction => {
                cases.push("entry of a user in no transaction");
                let user = &mut users[usize::from(entry.user) - 1];
                user.session = true;
                user.in_transaction = true;
                user.begun = before.state.clock;
            }
            _ => {}
        }
    }
    let well_made = state::is_well_made(&repaired.state, repaired.capacity, &repaired.queue);
    match cases[..] {
        [_] if well_made => cases,
        _ => Vec::new(),
    }
}

/// What a call has to do with PE: by the caller before it, and by who is ready after it.
fn ready_cases(
    before: &Machine,
    after: &Machine,
    call: &Call,
    answer: &Answer,
) -> Vec<&'static str> {
    let place = usize::from(call.user).wrapping_sub(1);
    let (Some(caller), false) = (before.state.users.get(place), answer.response == 22) else {
        return Vec::new();
    };
    let waits = |user: &User| {
        let passed = after.state.clock.saturating_sub(user.begun);
        user.ready && passed > u32::from(user.time_limit)
    };
    let past_limit = after.state.users.iter().any(waits);
    let mut cases = match (&call.command, answer.response) {
        (b"PE", 0) => vec!["PE in a transaction"],
        (b"PE", 29) => vec!["PE of an access-only user"],
        (_, 211) if caller.access_only => vec!["211 for an access-only user"],
        (b"PE", 211) => vec!["PE while ready"],
        (_, 9) if caller.ready && caller.overdue => vec!["9 for a ready user's mark"],
        (b"OP" | b"CL", 9) if caller.ready => vec!["OP or CL of a ready user"],
        (b"ET", 0) if caller.ready => vec!["ET of a ready user"],
        (b"ET", 53) if caller.ready => vec!["ET of a ready user, too much data"],
        (b"BT", 0) if caller.ready => vec!["BT of a ready user"],
        _ => Vec::new(),
    };
    cases.extend(past_limit.then_some("ready past the time limit"));
    cases
}

/// What alone keeps a state from being well made: a user who is ready in no transaction.
fn unready_case(before: &Machine) -> Vec<&'static str> {
    let mut repaired = before.clone();
    for user in &mut repaired.state.users {
        user.ready &= user.in_transaction;
    }
    let well_made = state::is_well_made(&repaired.state, repaired.capacity, &repaired.queue);
    match well_made {
        true => vec!["ready in no transaction"],
        false => Vec::new(),
    }
}

/// What L1 with option `C` met: by the caller and the entry of the ISN, as the clock left them.
fn committed_cases(
    before: &Machine,
    after: &Machine,
    list_call: &ListCall,
    answer: &Answer,
) -> Vec<&'static str> {
    let call = &list_call.call;
    if (&call.command, call.option) != (b"L1", b'C') {
        return Vec::new();
    }
    let definition = &after.state.definition;
    let file = definition
        .file_index(call.file)
        .map(|index| &definition.files[index]);
    match (answer.response, file) {
        (211, _) => vec!["C of a ready user"],
        (17, _) => vec!["C of an undefined file"],
        (53, _) => vec!["C with a short record buffer"],
        (0 | 113, Some(file)) if (1..=file.max_isn).contains(&call.isn) => {
            shown_cases(before, after, list_call, answer)
        }
        (113, _) => vec!["C of an ISN out of range"],
        _ => Vec::new(),
    }
}

/// A `C` reading that looked at the record.
fn shown_cases(
    before: &Machine,
    after: &Machine,
    list_call: &ListCall,
    answer: &Answer,
) -> Vec<&'static str> {
    let call = &list_call.call;
    let place = (call.file, call.isn);
    let entry_in = |machine: &Machine| {
        let mut entries = machine.entries().iter();
        entries
            .find(|entry| (entry.file, entry.isn) == place)
            .copied()
    };
    let in_store = after.records().contains_key(&place);
    let (entry, good) = (entry_in(after), answer.response == 0);
    let mut cases = match entry.map(|entry| (entry.changed, entry.existed)) {
        Some((true, true)) if in_store => vec!["C of a changed record"],
        Some((true, true)) => vec!["C of an emptied record"],
        Some((true, false)) if in_store => vec!["C of an added record"],
        Some((true, false)) => vec!["C of a record that was added and emptied"],
        Some(_) if good => vec!["C of an unchanged hold"],
        Some(_) => vec!["C of an unchanged hold, no record"],
        None if good => vec!["C of a record that nobody holds"],
        None => vec!["C of no record"],
    };
    let changed = entry.filter(|entry| entry.changed);
    let own = changed.is_some_and(|entry| entry.user == call.user);
    let backed_out = entry.is_none() && entry_in(before).is_some_and(|entry| entry.changed);
    let caller = &after.state.users[usize::from(call.user) - 1];
    let definition = &after.state.definition;
    let shorter = after.committed(call.file, call.isn).len() < definition.greatest_record_length();
    cases.extend(own.then_some("C of one's own change"));
    cases.extend(
        (changed.is_some() && good && shorter).then_some("C of an image shorter than the greatest"),
    );
    cases.extend((good && list_call.format == b".").then_some("C of no fields"));
    cases.extend((good && caller.access_only).then_some("C of an access-only user"));
    cases.extend(backed_out.then_some("C behind the back-out of a change"));
    cases
}
