//! The response table: each row a named condition and its number, in the order of checking.
//!
//! A condition may rely on every earlier row not holding.

use crate::context::Context;
use crate::definition::{self, Definition};
use crate::fields;
use crate::hold::{self, Entry};
use crate::line::Waiter;
use crate::state::{self, Call, Command, State, MAX_ET_DATA, MAX_USERS};
use crate::store;

type Row = (fn(&Context) -> bool, u16);

/// Who joins a line, or still waits in it: the one row whose call does something.
pub const WAITING: u16 = 20;

/// The rows after the clock, the overdue pass and the opening of a session.
const ROWS: [Row; 19] = [
    (other_call_while_ready, 211),
    (access_only_user, 29),
    (pe_without_transaction, 212),
    (file_not_defined, 17),
    (isn_out_of_range, 113),
    (format_buffer_broken, 41),
    (field_twice, 44),
    (record_buffer_length, 53),
    (value_not_allowed, 55),
    (option_i_finds_none, 3),
    (waits_in_line, WAITING),
    (held_by_another, 145),
    (record_missing_or_there, 113),
    (not_held_by_user, 144),
    (release_of_changed, 146),
    (n1_finds_no_isn, 75),
    (hold_limit_reached, 47),
    (queue_full, 70),
    (unique_value_taken, 198),
];

/// The number of the first row that holds.
pub fn first_row(context: &Context) -> Option<u16> {
    ROWS.iter()
        .find(|(holds, _)| holds(context))
        .map(|(_, number)| *number)
}

/// The rows of set-up: 10, then 11. Answers the definition read.
pub fn set_up_rows(
    table: &[u8],
    capacity: u32,
    store: &[u8],
    queue: &[Entry],
    images: &[u8],
) -> Result<Definition, u16> {
    let Some(definition) = definition::read_table(table) else {
        return Err(10);
    };
    if state::lent_too_short(&definition, capacity, store, queue, images) {
        return Err(11);
    }
    Ok(definition)
}

/// The rows of what is kept and lent: 11, 12. "Where the kept table is invalid these sizes mean nothing, and 12 is given
/// before 11."
pub fn usable_rows(
    state: &State,
    capacity: u32,
    store: &[u8],
    queue: &[Entry],
    images: &[u8],
) -> Result<(), u16> {
    if !definition::is_valid(&state.definition) {
        return Err(12);
    }
    if state::lent_too_short(&state.definition, capacity, store, queue, images) {
        return Err(11);
    }
    if !state::is_well_made(state, capacity, queue) {
        return Err(12);
    }
    Ok(())
}

/// The rows before the clock: 11, 12, 22, 72. Answers the command.
pub fn rows_before_clock(
    state: &State,
    capacity: u32,
    store: &[u8],
    queue: &[Entry],
    images: &[u8],
    call: &Call,
) -> Result<Command, u16> {
    usable_rows(state, capacity, store, queue, images)?;
    let Some(command) = Command::from_code(call.command) else {
        return Err(22);
    };
    if !command.has_option(call.option) {
        return Err(22);
    }
    if !(1..=MAX_USERS).contains(&usize::from(call.user)) {
        return Err(72);
    }
    Ok(command)
}

/// 211: "another call while ready": "he may only send ET or BT".
fn other_call_while_ready(context: &Context) -> bool {
    context.user().ready && !matches!(context.command, Command::Et | Command::Bt)
}

/// 29: "access-only user, call not OP, CL, L1, RE".
fn access_only_user(context: &Context) -> bool {
    let allowed = matches!(
        context.command,
        Command::Op | Command::Cl | Command::L1 | Command::Re
    );
    context.user().access_only && !allowed
}

/// 212: "PE without a transaction".
fn pe_without_transaction(context: &Context) -> bool {
    context.command == Command::Pe && !context.user().in_transaction
}

/// 17: "file not defined (HI to N2; not RI of ISN 0)".
fn file_not_defined(context: &Context) -> bool {
    names_file(context) && context.file().is_none()
}

/// HI to N2, but not RI of ISN 0, which is about every file.
fn names_file(context: &Context) -> bool {
    match context.command {
        Command::Ri => context.call.isn != 0,
        Command::Hi
        | Command::L1
        | Command::L4
        | Command::A1
        | Command::E1
        | Command::N1
        | Command::N2 => true,
        Command::Et | Command::Bt | Command::Re | Command::Op | Command::Cl | Command::Pe => false,
    }
}

/// 113: "ISN 0 or above highest (HI, RI, L1, L4, A1, E1, N2; not option `I`; RI may have 0)".
fn isn_out_of_range(context: &Context) -> bool {
    let uses_isn = names_file(context) && context.command != Command::N1;
    let Some(file) = context.file() else {
        return false;
    };
    let out_of_range = context.call.isn == 0 || context.call.isn > file.max_isn;
    uses_isn && context.call.option != b'I' && out_of_range
}

/// L1, L4, A1, N1 and N2 read a format buffer.
fn reads_format(command: Command) -> bool {
    matches!(command, Command::L1 | Command::L4) || brings_values(command)
}

fn brings_values(command: Command) -> bool {
    matches!(command, Command::A1 | Command::N1 | Command::N2)
}

/// 41: "format buffer breaks its form, or unknown name".
fn format_buffer_broken(context: &Context) -> bool {
    reads_format(context.command) && context.elements().is_none()
}

/// 44: "field twice in A1, N1, N2".
fn field_twice(context: &Context) -> bool {
    let Some(elements) = context.elements() else {
        return false;
    };
    brings_values(context.command) && fields::names_twice(&elements)
}

/// 53: "record buffer shorter than the named fields, or than the data for RE; ET data over 64".
fn record_buffer_length(context: &Context) -> bool {
    let length = context.record.len();
    match context.command {
        Command::Re => length < usize::from(context.user().et_length),
        Command::Et => length > MAX_ET_DATA,
        _ => reads_format(context.command) && length < named_length(context),
    }
}

fn named_length(context: &Context) -> usize {
    match (context.file(), context.elements()) {
        (Some(file), Some(elements)) => fields::named_length(file, &elements),
        _ => 0,
    }
}

/// 55: "A1, N1, N2: a digit or sign not allowed".
fn value_not_allowed(context: &Context) -> bool {
    let (Some(file), Some(elements)) = (context.file(), context.elements()) else {
        return false;
    };
    brings_values(context.command)
        && fields::values(file, &elements, context.record)
            .iter()
            .any(|(index, value)| !fields::is_allowed(&file.fields[*index], value))
}

/// 3: "option `I` finds none".
fn option_i_finds_none(context: &Context) -> bool {
    context.call.option == b'I' && context.target_isn().is_none()
}

/// 20: "where 145 would be given, the call joins that record's line"; "a user at or past [his hold limit] doesn't join".
/// Whoever is in a line here is in it by this very call.
fn waits_in_line(context: &Context) -> bool {
    Waiter::by(context.command, context.call).is_some()
        && held_by_another(context)
        && (context.state.line.has(context.call.user) || !is_at_hold_limit(context))
}

/// 145: "another user holds the ISN (not L1, not RI)". N1's ISN has no holder.
fn held_by_another(context: &Context) -> bool {
    let looks_at_holds = matches!(
        context.command,
        Command::Hi | Command::L4 | Command::A1 | Command::E1 | Command::N2
    );
    let Some(isn) = context.target_isn() else {
        return false;
    };
    looks_at_holds && context.holder(isn).is_some() && !context.held_by_caller(isn)
}

/// 113: "no record (L1, L4, A1, E1), or one there (N2)"; for option `C` no record as ended transactions left it.
fn record_missing_or_there(context: &Context) -> bool {
    let Some(isn) = context.target_isn() else {
        return false;
    };
    match context.command {
        Command::L1 | Command::L4 => context.shown(isn).is_none(),
        Command::A1 | Command::E1 => !context.has_record(isn),
        Command::N2 => context.has_record(isn),
        _ => false,
    }
}

/// 144: "not held by the user (A1, E1 without `H`, RI unless 0)".
fn not_held_by_user(context: &Context) -> bool {
    let needs_hold = match context.command {
        Command::A1 | Command::E1 => context.call.option != b'H',
        Command::Ri => context.call.isn != 0,
        _ => false,
    };
    needs_hold && !context.held_by_caller(context.call.isn)
}

/// 146: "RI of a changed entry".
fn release_of_changed(context: &Context) -> bool {
    let place = hold::position(context.entries(), context.call.file, context.call.isn);
    context.command == Command::Ri
        && context.call.isn != 0
        && place.is_some_and(|place| context.entries()[place].changed)
}

/// 75: "N1 finds no ISN".
fn n1_finds_no_isn(context: &Context) -> bool {
    context.command == Command::N1 && context.target_isn().is_none()
}

/// Whether the call makes a new entry: it holds, and the user does not hold the ISN already.
fn makes_entry(context: &Context) -> bool {
    let holds = matches!(
        context.command,
        Command::Hi | Command::L4 | Command::A1 | Command::E1 | Command::N1 | Command::N2
    );
    let Some(isn) = context.target_isn() else {
        return false;
    };
    holds && !context.held_by_caller(isn)
}

/// 47: "new entry, user at or past his hold limit".
fn hold_limit_reached(context: &Context) -> bool {
    makes_entry(context) && is_at_hold_limit(context)
}

/// His entries in all files count.
fn is_at_hold_limit(context: &Context) -> bool {
    let held = hold::count_of(context.entries(), context.call.user);
    held >= usize::from(context.user().hold_limit)
}

/// 70: "new entry, queue has H".
fn queue_full(context: &Context) -> bool {
    makes_entry(context) && context.state.entries >= context.capacity
}

/// 198: "a unique value taken". "N1 and N2 judge every unique field, A1 the named ones."
fn unique_value_taken(context: &Context) -> bool {
    if !brings_values(context.command) {
        return false;
    }
    let (Some(file), Some(elements)) = (context.file(), context.elements()) else {
        return false;
    };
    let Some(isn) = context.target_isn() else {
        return false;
    };
    let Some(content) = context.new_record(isn) else {
        return false;
    };
    (0..file.used_fields().len()).any(|index| {
        let judged = context.command != Command::A1 || elements.contains(&index);
        let value = &content[file.field_range(index)];
        file.fields[index].is_unique() && judged && is_taken(context, index, isn, value)
    })
}

/// A value "in stored form counts as taken while another record of the file has it in that field, or an image of
/// another user's changed entry in that file has it there and a record was there before".
fn is_taken(context: &Context, field: usize, isn: u16, value: &[u8]) -> bool {
    taken_by_record(context, field, isn, value) || taken_by_image(context, field, value)
}

fn taken_by_record(context: &Context, field: usize, isn: u16, value: &[u8]) -> bool {
    let definition = &context.state.definition;
    let Some(index) = context.file_index() else {
        return false;
    };
    let file = &definition.files[index];
    (1..=file.max_isn).any(|other| {
        other != isn
            && context.has_record(other)
            && &store::record(definition, context.store, index, other)[file.field_range(field)]
                == value
    })
}

fn taken_by_image(context: &Context, field: usize, value: &[u8]) -> bool {
    let Some(file) = context.file() else {
        return false;
    };
    context.entries().iter().enumerate().any(|(place, entry)| {
        entry.changed
            && entry.existed
            && entry.user != context.call.user
            && entry.file == file.number
            && &context.image(place)[file.field_range(field)] == value
    })
}
