//! The nucleus: set-up and one call.

use crate::context::Context;
use crate::fields;
use crate::hold::{self, Entry};
use crate::line::Waiter;
use crate::responses;
use crate::state::{Answer, Call, Command, State, User, MAX_USERS};
use crate::store;

/// A state, or the response that refuses the table (10) or the lent buffers (11).
pub type SetUp = Result<State, u16>;

/// Makes a fresh nucleus: empties every ISN of the store and writes nothing else lent.
pub fn set_up(
    table: &[u8],
    capacity: u32,
    store: &mut [u8],
    queue: &mut [Entry],
    images: &mut [u8],
) -> SetUp {
    let definition = responses::set_up_rows(table, capacity, store, queue, images)?;
    store::empty_all(&definition, store);
    Ok(State::fresh(definition))
}

/// One call on any state and any lent buffers.
#[allow(clippy::too_many_arguments)]
pub fn call(
    state: &mut State,
    capacity: u32,
    store: &mut [u8],
    queue: &mut [Entry],
    images: &mut [u8],
    call: &Call,
    format: &[u8],
    record: &mut [u8],
) -> Answer {
    let command = match responses::rows_before_clock(state, capacity, store, queue, images, call) {
        Ok(command) => command,
        Err(response) => return Answer::refused(response),
    };
    let mut context = Context {
        state,
        capacity,
        store,
        queue,
        images,
        command,
        call,
        format,
        record,
    };
    leave_line(&mut context);
    keep_clock(&mut context);
    if answers_9(&mut context) {
        return Answer::refused(9);
    }
    open_session(&mut context);
    match responses::first_row(&context) {
        Some(responses::WAITING) => join_line(&mut context),
        Some(response) => Answer::refused(response),
        None => perform(&mut context),
    }
}

/// "Any other call of his past 72's check leaves the line, before the clock's back-outs."
fn leave_line(context: &mut Context) {
    let line = &mut context.state.line;
    if !line.keeps_place(context.command, context.call) {
        line.leave(context.call.user);
    }
}

/// "The call joins that record's line and answers 20."
fn join_line(context: &mut Context) -> Answer {
    if let Some(waiter) = Waiter::by(context.command, context.call) {
        context.state.line.join(waiter);
    }
    Answer::refused(responses::WAITING)
}

/// "The nucleus keeps the greatest it was given and uses that. Then each user, rising, whose transaction began more
/// than his time limit ago is backed out and marked overdue."
fn keep_clock(context: &mut Context) {
    context.state.clock = context.state.clock.max(context.call.clock);
    for user in 1..=MAX_USERS as u8 {
        let index = usize::from(user) - 1;
        if context.state.users[index].is_late(context.state.clock) {
            back_out(context, user);
            context.state.users[index].overdue = true;
        }
    }
}

/// 9: "overdue mark, or OP or CL in a transaction". A call of a marked user clears the mark; OP and CL with a
/// transaction open back it out.
fn answers_9(context: &mut Context) -> bool {
    if context.user().overdue {
        context.user_mut().overdue = false;
        return true;
    }
    let ends_session = matches!(context.command, Command::Op | Command::Cl);
    if ends_session && context.user().in_transaction {
        back_out(context, context.call.user);
        return true;
    }
    false
}

/// "A user with no session gets one."
fn open_session(context: &mut Context) {
    let user = context.user_mut();
    if !user.session {
        user.open_session();
    }
}

/// The work of a call that no row refuses.
fn perform(context: &mut Context) -> Answer {
    match context.command {
        Command::Hi => hold_isn(context),
        Command::Ri => release(context),
        Command::L1 => read(context),
        Command::L4 => hold_and_read(context),
        Command::A1 => replace(context),
        Command::E1 => erase(context),
        Command::N1 => add_at_free_isn(context),
        Command::N2 => add(context),
        Command::Et => end_transaction(context),
        Command::Bt => back_out_transaction(context),
        Command::Re => read_et_data(context),
        Command::Op => open(context),
        Command::Cl => close(context),
        Command::Pe => set_ready(context),
    }
}

fn hold_isn(context: &mut Context) -> Answer {
    let isn = context.call.isn;
    hold(context, isn);
    Answer::with_isn(isn)
}

/// Makes a new entry unless the user holds the ISN already.
fn hold(context: &mut Context, isn: u16) {
    if !context.held_by_caller(isn) {
        add_entry(context, context.call.user, context.call.file, isn);
    }
}

/// A new entry at the queue's end, unchanged. "A transaction opens at the user's first new hold."
fn add_entry(context: &mut Context, user: u8, file: u8, isn: u16) {
    context.queue[context.state.entries as usize] = Entry {
        user,
        file,
        isn,
        changed: false,
        existed: context.has_record_in(file, isn),
    };
    context.state.entries += 1;
    let clock = context.state.clock;
    context.state.users[usize::from(user) - 1].start_transaction(clock);
}

/// "RI drops the user's unchanged entry; ISN 0 drops all of his unchanged ones, in every file, and skips the changed.
/// Quantity: entries dropped."
fn release(context: &mut Context) -> Answer {
    let Call {
        user, file, isn, ..
    } = *context.call;
    let dropped = remove_entries(context, |entry| {
        let named = isn == 0 || (entry.file == file && entry.isn == isn);
        entry.user == user && !entry.changed && named
    });
    hand_over(context, &dropped);
    Answer {
        isn,
        quantity: dropped.len(),
        ..Answer::default()
    }
}

fn read(context: &mut Context) -> Answer {
    match context.target_isn() {
        Some(isn) => read_isn(context, isn),
        None => unreachable!("the row of 3 holds"),
    }
}

fn hold_and_read(context: &mut Context) -> Answer {
    match context.target_isn() {
        Some(isn) => {
            hold(context, isn);
            read_isn(context, isn)
        }
        None => unreachable!("the row of 3 holds"),
    }
}

/// "Quantity: bytes written, at the front of the record buffer."
fn read_isn(context: &mut Context, isn: u16) -> Answer {
    let (index, elements) = file_and_elements(context);
    let Some(content) = context.shown(isn) else {
        unreachable!("the row of 113 holds");
    };
    let file = &context.state.definition.files[index];
    let values = fields::read_named(file, &elements, content);
    context.record[..values.len()].copy_from_slice(&values);
    Answer {
        isn,
        quantity: values.len(),
        ..Answer::default()
    }
}

fn file_and_elements(context: &Context) -> (usize, Vec<usize>) {
    match (context.file_index(), context.elements()) {
        (Some(index), Some(elements)) => (index, elements),
        _ => unreachable!("the rows of 17 and 41 hold"),
    }
}

/// A1 replaces the named fields; option `H` takes the hold.
fn replace(context: &mut Context) -> Answer {
    write_record(context, context.call.isn)
}

/// N2 adds at the given ISN.
fn add(context: &mut Context) -> Answer {
    write_record(context, context.call.isn)
}

/// N1 adds at the ISN it finds, and keeps that as its mark.
fn add_at_free_isn(context: &mut Context) -> Answer {
    let Some(isn) = context.target_isn() else {
        unreachable!("the row of 75 holds");
    };
    context.state.last_assigned[usize::from(context.call.file) - 1] = isn;
    write_record(context, isn)
}

/// Holds the ISN and writes what A1, N1 or N2 makes of its record.
fn write_record(context: &mut Context, isn: u16) -> Answer {
    let (index, _) = file_and_elements(context);
    let Some(content) = context.new_record(isn) else {
        unreachable!("the rows of 17 and 41 hold");
    };
    hold(context, isn);
    keep_image(context, isn);
    let definition = &context.state.definition;
    store::put_record(definition, context.store, index, isn, &content);
    Answer::with_isn(isn)
}

/// E1 empties the ISN; option `H` takes the hold.
fn erase(context: &mut Context) -> Answer {
    let isn = context.call.isn;
    let Some(index) = context.file_index() else {
        unreachable!("the row of 17 holds");
    };
    hold(context, isn);
    keep_image(context, isn);
    store::empty(&context.state.definition, context.store, index, isn);
    Answer::with_isn(isn)
}

/// "Only the first change of an entry keeps an image." Whether a record is there before is judged now.
fn keep_image(context: &mut Context, isn: u16) {
    let place = hold::position(context.entries(), context.call.file, isn);
    let (Some(place), Some(index)) = (place, context.file_index()) else {
        unreachable!("the entry is there");
    };
    if context.queue[place].changed {
        return;
    }
    let existed = context.has_record(isn);
    context.queue[place].changed = true;
    context.queue[place].existed = existed;
    if existed {
        let definition = &context.state.definition;
        let content = store::record(definition, context.store, index, isn);
        let start = hold::image_range(place, definition.greatest_record_length()).start;
        context.images[start..start + content.len()].copy_from_slice(content);
    }
}

/// "ET keeps the changes, adds 1 to the sequence (it stops at 4294967295) and stores a record buffer of 1 to 64 bytes
/// as the user's ET data; an empty one leaves the old data."
fn end_transaction(context: &mut Context) -> Answer {
    let caller = context.call.user;
    let removed = remove_entries(context, |entry| entry.user == caller);
    store_et_data(context);
    let user = context.user_mut();
    user.end_transaction();
    user.sequence = user.sequence.saturating_add(1);
    let sequence = user.sequence;
    hand_over(context, &removed);
    Answer {
        quantity: removed.len(),
        sequence,
        ..Answer::default()
    }
}

fn store_et_data(context: &mut Context) {
    let length = context.record.len();
    if length == 0 {
        return;
    }
    let user = &mut context.state.users[usize::from(context.call.user) - 1];
    user.et_data[..length].copy_from_slice(context.record);
    user.et_length = length as u8;
}

fn back_out_transaction(context: &mut Context) -> Answer {
    Answer {
        quantity: back_out(context, context.call.user),
        ..Answer::default()
    }
}

/// "A back-out puts every changed entry's image back, or makes its ISN empty where no record was, and removes all the
/// user's entries." The transaction ends; "a back-out takes its user from the line". Answers how many entries went.
fn back_out(context: &mut Context, user: u8) -> usize {
    for place in 0..context.state.entries as usize {
        let entry = context.queue[place];
        if entry.user == user && entry.changed {
            undo(context, place, &entry);
        }
    }
    context.state.users[usize::from(user) - 1].end_transaction();
    let removed = remove_entries(context, |entry| entry.user == user);
    context.state.line.leave(user);
    hand_over(context, &removed);
    removed.len()
}

fn undo(context: &mut Context, place: usize, entry: &Entry) {
    let definition = &context.state.definition;
    let Some(index) = definition.file_index(entry.file) else {
        unreachable!("a well made entry is within its file");
    };
    if !entry.existed {
        store::empty(definition, context.store, index, entry.isn);
        return;
    }
    let start = hold::image_range(place, definition.greatest_record_length()).start;
    let length = definition.files[index].record_length();
    let image = &context.images[start..start + length];
    store::put_record(definition, context.store, index, entry.isn, image);
}

/// Removes entries; answers them, oldest first.
fn remove_entries(context: &mut Context, goes: impl Fn(&Entry) -> bool) -> Vec<Entry> {
    let image_length = context.state.definition.greatest_record_length();
    let count = context.state.entries as usize;
    let removed = hold::remove_where(context.queue, context.images, image_length, count, goes);
    context.state.entries = (count - removed.len()) as u32;
    removed
}

/// "When the holder lets go, the first in line gets the hold"; "each back-out, ET or RI hands over after its removals, oldest
/// entry first". The receiver gets a new entry, and waits no more.
fn hand_over(context: &mut Context, removed: &[Entry]) {
    for Entry { file, isn, .. } in removed {
        if let Some(first) = context.state.line.first_for(*file, *isn) {
            context.state.line.leave(first.user);
            add_entry(context, first.user, *file, *isn);
        }
    }
}

/// "Command PE sets his open transaction ready."
fn set_ready(context: &mut Context) -> Answer {
    context.user_mut().ready = true;
    Answer::default()
}

/// "RE writes the ET data; quantity its length, 0 when none."
fn read_et_data(context: &mut Context) -> Answer {
    let user = context.state.users[usize::from(context.call.user) - 1];
    let quantity = usize::from(user.et_length);
    context.record[..quantity].copy_from_slice(&user.et_data[..quantity]);
    Answer {
        quantity,
        ..Answer::default()
    }
}

/// "OP sets hold limit (ISN) and time limit (limit), 0 for the default, and sequence 0; option `A` makes the user
/// access-only, a blank ends that."
fn open(context: &mut Context) -> Answer {
    let call = *context.call;
    let user = context.user_mut();
    user.hold_limit = or_default(call.isn, User::DEFAULT_HOLD_LIMIT);
    user.time_limit = or_default(call.limit, User::DEFAULT_TIME_LIMIT);
    user.sequence = 0;
    user.access_only = call.option == b'A';
    Answer::default()
}

fn or_default(given: u16, default: u16) -> u16 {
    if given == 0 {
        default
    } else {
        given
    }
}

/// "CL ends the session" and returns the sequence.
fn close(context: &mut Context) -> Answer {
    let user = context.user_mut();
    user.session = false;
    Answer {
        sequence: user.sequence,
        ..Answer::default()
    }
}
