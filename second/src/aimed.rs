//! Calls aimed at single rules by what a well made nucleus has: entries to release, values that are taken, records to
//! change or to read as they were, ET data, a line to wait in. Calls that look at nothing meet such rules rarely.

mod waiting;

use crate::definition::File;
use crate::fields;
use crate::hold::{self, Entry};
use crate::machine::Machine;
use crate::random::{self, ListCall, Random};
use crate::state::{Call, User};
use crate::store;

/// Who makes a call that is no certain user's: users 1 to 4.
const USERS: std::ops::RangeInclusive<u8> = 1..=4;

type Aim = fn(&mut Random, &Machine) -> Option<ListCall>;

/// Each aim as often as it is tried; some find little to aim at.
const AIMS: [(usize, Aim); 20] = [
    (12, hold_more),
    (8, hold_past_limit),
    (16, release_one),
    (4, release_changed),
    (8, release_all),
    (10, add_record),
    (6, end_with_changes),
    (16, change_record),
    (10, take_from_record),
    (16, leave_doubled),
    (1, name_twice_beside_unknown),
    (8, name_nothing),
    (14, leave_unstored),
    (3, read_et_data),
    (10, end_at_last_sequence),
    (6, set_ready),
    (11, end_ready),
    (10, read_committed),
    (12, waiting::wait),
    (3, waiting::wait_at_limit),
];

/// What there is rarely something for, so that it is looked for first, each once in so many times.
const RARE: [(u64, Aim); 12] = [
    (2, take_from_image),
    (3, take_unstored),
    (3, call_ready_and_barred),
    (4, read_behind_back_out),
    (6, read_by_access_only),
    (6, read_image),
    (10, read_added_and_emptied),
    (10, waiting::wait_again),
    (8, waiting::let_go),
    (14, waiting::wait_no_more),
    (10, waiting::outlast_holder),
    (10, waiting::close_ring),
];

/// What there is to aim at in a line.
const LINE: [(usize, Aim); 7] = [
    (3, waiting::wait),
    (4, waiting::wait_at_limit),
    (5, waiting::close_ring),
    (3, waiting::wait_again),
    (4, waiting::wait_no_more),
    (6, waiting::let_go),
    (3, waiting::outlast_holder),
];

/// A call aimed at one of the rules; none where the nucleus had nothing for a few of them.
pub fn call(random: &mut Random, machine: &Machine) -> Option<ListCall> {
    for (times, aim) in RARE {
        if random.once_in(times) {
            if let Some(list_call) = aim(random, machine) {
                return Some(list_call);
            }
        }
    }
    call_by(random, machine, &AIMS)
}

/// The same at the line.
pub fn line_call(random: &mut Random, machine: &Machine) -> Option<ListCall> {
    call_by(random, machine, &LINE)
}

fn call_by(random: &mut Random, machine: &Machine, aims: &[(usize, Aim)]) -> Option<ListCall> {
    let aims: Vec<Aim> = aims
        .iter()
        .flat_map(|(times, aim)| vec![*aim; *times])
        .collect();
    (0..4).find_map(|_| random.pick(&aims)(random, machine))
}

/// An ISN: its file by index.
type Place = (usize, u16);

fn places(machine: &Machine) -> Vec<Place> {
    let files = machine.state.definition.used_files().iter().enumerate();
    files
        .flat_map(|(index, file)| (1..=file.max_isn).map(move |isn| (index, isn)))
        .collect()
}

fn records(machine: &Machine) -> Vec<Place> {
    let mut records = places(machine);
    records.retain(|(index, isn)| {
        store::has_record(&machine.state.definition, &machine.store, *index, *isn)
    });
    records
}

fn content(machine: &Machine, (index, isn): Place) -> &[u8] {
    store::record(&machine.state.definition, &machine.store, index, isn)
}

fn file(machine: &Machine, index: usize) -> &File {
    &machine.state.definition.files[index]
}

fn holder(machine: &Machine, (index, isn): Place) -> Option<u8> {
    hold::holder(machine.entries(), file(machine, index).number, isn)
}

fn all_fields(file: &File) -> Vec<usize> {
    (0..file.used_fields().len()).collect()
}

fn unique_fields(file: &File) -> Vec<usize> {
    let mut unique = all_fields(file);
    unique.retain(|field| file.fields[*field].is_unique());
    unique
}

fn other_fields(file: &File) -> Vec<usize> {
    let mut others = all_fields(file);
    others.retain(|field| !file.fields[*field].is_unique());
    others
}

fn user(machine: &Machine, number: u8) -> &User {
    &machine.state.users[usize::from(number) - 1]
}

/// Whether none of 9, 211 and 29 waits for the user.
fn is_able(machine: &Machine, number: u8) -> bool {
    let user = user(machine, number);
    let access_only = user.session && user.access_only;
    !user.overdue && !user.is_late(machine.state.clock) && !user.ready && !access_only
}

/// Whether neither 47 nor 70 waits for a new entry of the user.
fn has_room(machine: &Machine, number: u8) -> bool {
    machine.entries().len() < machine.capacity as usize && is_below_limit(machine, number)
}

fn is_below_limit(machine: &Machine, number: u8) -> bool {
    let user = user(machine, number);
    let limit = match user.session {
        true => user.hold_limit,
        false => User::DEFAULT_HOLD_LIMIT,
    };
    hold::count_of(machine.entries(), number) < usize::from(limit)
}

fn somebody(random: &mut Random, able: impl Fn(u8) -> bool) -> Option<u8> {
    let able: Vec<u8> = USERS.filter(|number| able(*number)).collect();
    random.pick_any(&able)
}

/// The holder of the ISN; where there is none, somebody who can hold it.
fn changer(random: &mut Random, machine: &Machine, place: Place) -> Option<u8> {
    match holder(machine, place) {
        Some(holder) => is_able(machine, holder).then_some(holder),
        None => somebody(random, |number| {
            is_able(machine, number) && has_room(machine, number)
        }),
    }
}

/// The users who hold something that is changed or not, as often as they do.
fn holders(machine: &Machine, changed: bool) -> Vec<u8> {
    let entries = machine.entries().iter();
    entries
        .filter(|entry| entry.changed == changed)
        .map(|entry| entry.user)
        .collect()
}

fn call_at(machine: &Machine, command: &[u8; 2], user: u8, (index, isn): Place) -> Call {
    Call {
        command: *command,
        option: b' ',
        user,
        file: file(machine, index).number,
        isn,
        limit: 0,
        clock: 0,
    }
}

fn without_buffers(call: Call) -> ListCall {
    ListCall {
        call,
        format: Vec::new(),
        record: Vec::new(),
    }
}

/// A call that names these fields, with this record buffer.
fn naming(call: Call, file: &File, elements: &[usize], record: Vec<u8>) -> ListCall {
    ListCall {
        call,
        format: random::format_of(file, elements),
        record,
    }
}

fn with_option(option: u8, call: Call) -> Call {
    Call { option, ..call }
}

/// An ISN that nobody holds.
fn free_place(random: &mut Random, machine: &Machine) -> Option<Place> {
    let mut free = places(machine);
    free.retain(|place| holder(machine, *place).is_none());
    random.pick_any(&free)
}

/// HI of another ISN by a user who is at his hold limit, or where the queue is full.
fn hold_past_limit(random: &mut Random, machine: &Machine) -> Option<ListCall> {
    let place = free_place(random, machine)?;
    let user = somebody(random, |number| {
        is_able(machine, number) && !has_room(machine, number)
    })?;
    Some(without_buffers(call_at(machine, b"HI", user, place)))
}

/// HI or L4 of another ISN by a user who holds some, if any.
fn hold_more(random: &mut Random, machine: &Machine) -> Option<ListCall> {
    let place = free_place(random, machine)?;
    let holders: Vec<u8> = machine.entries().iter().map(|entry| entry.user).collect();
    let user = match random.pick_any(&holders) {
        Some(user) => user,
        None => changer(random, machine, place)?,
    };
    if !records(machine).contains(&place) || random.once_in(3) {
        return Some(without_buffers(call_at(machine, b"HI", user, place)));
    }
    let call = call_at(machine, b"L4", user, place);
    let file = file(machine, place.0);
    let record = vec![0xEE; file.record_length() + random.below(2) as usize];
    Some(naming(call, file, &all_fields(file), record))
}

/// RI of an unchanged entry, of a user who has more of them, if any.
fn release_one(random: &mut Random, machine: &Machine) -> Option<ListCall> {
    let holders = holders(machine, false);
    let has_more = |entry: &&Entry| holders.iter().filter(|user| **user == entry.user).count() > 1;
    let entries = machine.entries().iter();
    let mut unchanged: Vec<&Entry> = entries.filter(|entry| !entry.changed).collect();
    if unchanged.iter().any(has_more) {
        unchanged.retain(has_more);
    }
    release(random, machine, &unchanged)
}

/// RI of a changed entry.
fn release_changed(random: &mut Random, machine: &Machine) -> Option<ListCall> {
    let entries = machine.entries().iter();
    let changed: Vec<&Entry> = entries.filter(|entry| entry.changed).collect();
    release(random, machine, &changed)
}

/// RI of one of these entries.
fn release(random: &mut Random, machine: &Machine, entries: &[&Entry]) -> Option<ListCall> {
    let entry = random.pick_any(entries)?;
    let index = machine.state.definition.file_index(entry.file)?;
    let call = call_at(machine, b"RI", entry.user, (index, entry.isn));
    Some(without_buffers(call))
}

/// RI of ISN 0, of a user who has something to release.
fn release_all(random: &mut Random, machine: &Machine) -> Option<ListCall> {
    let user = random.pick_any(&holders(machine, false))?;
    Some(without_buffers(call_at(machine, b"RI", user, (0, 0))))
}

/// ET of a user who has changed something.
fn end_with_changes(random: &mut Random, machine: &Machine) -> Option<ListCall> {
    let user = random.pick_any(&holders(machine, true))?;
    Some(without_buffers(call_at(machine, b"ET", user, (0, 0))))
}

/// Those of the places that are so, or all where none is.
fn preferred(places: Vec<Place>, so: impl Fn(&Place) -> bool) -> Vec<Place> {
    match places.iter().any(&so) {
        true => places.into_iter().filter(so).collect(),
        false => places,
    }
}

/// N2 of all fields at an ISN without a record, in a file with unique values and several ISNs, if any.
fn add_record(random: &mut Random, machine: &Machine) -> Option<ListCall> {
    let records = records(machine);
    let mut empty = places(machine);
    empty.retain(|place| !records.contains(place));
    let empty = preferred(empty, |(index, _)| {
        let file = file(machine, *index);
        file.max_isn > 1 && !unique_fields(file).is_empty()
    });
    let place = random.pick_any(&empty)?;
    let user = changer(random, machine, place)?;
    let call = call_at(machine, b"N2", user, place);
    let file = file(machine, place.0);
    let elements = all_fields(file);
    let record = random::values(random, file, &elements);
    Some(naming(call, file, &elements, record))
}

/// A1 of all fields, or E1, of a record, where its file has others, if any: an image is kept.
fn change_record(random: &mut Random, machine: &Machine) -> Option<ListCall> {
    let records = records(machine);
    let in_file = |index| records.iter().filter(|place| place.0 == index).count();
    let records = preferred(records.clone(), |place| in_file(place.0) > 1);
    let place = random.pick_any(&records)?;
    let user = changer(random, machine, place)?;
    let command = random.pick(&[b"A1", b"A1", b"E1"]);
    let call = with_option(b'H', call_at(machine, command, user, place));
    let file = file(machine, place.0);
    let elements = all_fields(file);
    let record = random::values(random, file, &elements);
    Some(naming(call, file, &elements, record))
}

/// A unique value that is taken: its file and field, the ISN that has or had it, and whose image it is, if one's.
struct Taken {
    place: Place,
    field: usize,
    value: Vec<u8>,
    owner: Option<u8>,
}

/// The unique values in one record or image.
fn taken_in(machine: &Machine, place: Place, content: &[u8], owner: Option<u8>) -> Vec<Taken> {
    let file = file(machine, place.0);
    let taken = |field| Taken {
        place,
        field,
        value: content[file.field_range(field)].to_vec(),
        owner,
    };
    unique_fields(file).into_iter().map(taken).collect()
}

fn taken_by_records(machine: &Machine) -> Vec<Taken> {
    let records = records(machine).into_iter();
    records
        .flat_map(|place| taken_in(machine, place, content(machine, place), None))
        .collect()
}

/// The values that only an image has.
fn taken_by_images(machine: &Machine) -> Vec<Taken> {
    let definition = &machine.state.definition;
    let width = definition.greatest_record_length();
    let mut taken = Vec::new();
    for (number, entry) in machine.entries().iter().enumerate() {
        let Some(index) = definition.file_index(entry.file) else {
            continue;
        };
        if entry.changed && entry.existed {
            let image = &machine.images[hold::image_range(number, width)];
            let place = (index, entry.isn);
            taken.extend(taken_in(machine, place, image, Some(entry.user)));
        }
    }
    let in_records = taken_by_records(machine);
    let same = |one: &Taken, other: &Taken| {
        (one.place.0, one.field, &one.value) == (other.place.0, other.field, &other.value)
    };
    taken.retain(|one| !in_records.iter().any(|other| same(one, other)));
    taken
}

fn take_from_record(random: &mut Random, machine: &Machine) -> Option<ListCall> {
    take(random, machine, &taken_by_records(machine))
}

/// The bytes of a unique value in no stored form, which is not taken.
fn take_unstored(random: &mut Random, machine: &Machine) -> Option<ListCall> {
    let mut unstored = taken_by_records(machine);
    unstored.retain(|taken| {
        let field = &file(machine, taken.place.0).fields[taken.field];
        fields::stored_form(field, &taken.value) != taken.value
    });
    take(random, machine, &unstored)
}

fn take_from_image(random: &mut Random, machine: &Machine) -> Option<ListCall> {
    take(random, machine, &taken_by_images(machine))
}

/// A1 of another record of the file that names the field with the value.
fn take(random: &mut Random, machine: &Machine, all: &[Taken]) -> Option<ListCall> {
    let records = records(machine);
    let mut pairs: Vec<(&Taken, Place)> = Vec::new();
    for taken in all {
        let file = file(machine, taken.place.0);
        let is_target = |place: &Place| {
            let owned = taken.owner.is_some() && holder(machine, *place) == taken.owner;
            place.0 == taken.place.0 && *place != taken.place && !owned
        };
        if fields::is_allowed(&file.fields[taken.field], &taken.value) {
            let targets = records.iter().copied().filter(is_target);
            pairs.extend(targets.map(|place| (taken, place)));
        }
    }
    let is_held = |(_, place): &(&Taken, Place)| holder(machine, *place).is_some();
    if random.below(3) > 0 && pairs.iter().any(is_held) {
        pairs.retain(is_held);
    }
    let (taken, place) = random.pick_any(&pairs)?;
    let user = changer(random, machine, place)?;
    let option = match holder(machine, place) {
        Some(_) => random.pick(b"  H"),
        None => b'H',
    };
    let call = with_option(option, call_at(machine, b"A1", user, place));
    let file = file(machine, place.0);
    let mut elements = vec![taken.field];
    let mut record = taken.value.clone();
    if let Some(field) = random.pick_any(&other_fields(file)) {
        elements.push(field);
        record.extend(fields::null_value(&file.fields[field]));
    }
    Some(naming(call, file, &elements, record))
}

/// A1 that names no unique field, of a record that has a unique value of another one.
fn leave_doubled(random: &mut Random, machine: &Machine) -> Option<ListCall> {
    let records = records(machine);
    let doubled = |place: &Place| {
        let file = file(machine, place.0);
        records.iter().any(|other| {
            let same = |field: &usize| {
                content(machine, *place)[file.field_range(*field)]
                    == content(machine, *other)[file.field_range(*field)]
            };
            other.0 == place.0 && other != place && unique_fields(file).iter().any(same)
        })
    };
    let has_other_fields = |place: &Place| !other_fields(file(machine, place.0)).is_empty();
    let mut chosen = records.clone();
    chosen.retain(|place| doubled(place) && has_other_fields(place));
    let place = random.pick_any(&chosen)?;
    let user = changer(random, machine, place)?;
    let call = with_option(b'H', call_at(machine, b"A1", user, place));
    let file = file(machine, place.0);
    let elements = other_fields(file);
    let nulls = elements
        .iter()
        .flat_map(|field| fields::null_value(&file.fields[*field]));
    Some(naming(call, file, &elements, nulls.collect()))
}

/// A1, N1 or N2 that names one field twice, and one that the file does not have.
fn name_twice_beside_unknown(random: &mut Random, machine: &Machine) -> Option<ListCall> {
    let user = somebody(random, |number| is_able(machine, number))?;
    let place = random.pick_any(&places(machine))?;
    let name = random.pick(file(machine, place.0).used_fields()).name;
    let mut names = vec![name, name];
    let unknown = random.pick(&[*b"ZZ", *b"ZP", *b"aa"]);
    names.insert(random.below(3) as usize, unknown);
    let mut format = names.join(&b',');
    format.push(b'.');
    let command = random.pick(&[b"A1", b"N1", b"N2"]);
    Some(ListCall {
        call: call_at(machine, command, user, place),
        format,
        record: vec![b'1'; 8],
    })
}

/// A call that names no field: a record is read, held or replaced, or one of nulls added; rarely there is a comma before
/// its period.
fn name_nothing(random: &mut Random, machine: &Machine) -> Option<ListCall> {
    let place = random.pick_any(&places(machine))?;
    let user = changer(random, machine, place)?;
    let (command, option) = match records(machine).contains(&place) {
        true => random.pick(&[(b"L1", b' '), (b"L4", b' '), (b"A1", b' '), (b"A1", b'H')]),
        false => random.pick(&[(b"N1", b' '), (b"N2", b' ')]),
    };
    let format = match random.once_in(8) {
        true => [&file(machine, place.0).fields[0].name[..], b",."].concat(),
        false => b".".to_vec(),
    };
    let length = random.pick(&[0, 0, 1, 40]);
    Some(ListCall {
        call: with_option(option, call_at(machine, command, user, place)),
        format,
        record: random.bytes(length),
    })
}

/// A1 that names no field, of a record with a value in no stored form.
fn leave_unstored(random: &mut Random, machine: &Machine) -> Option<ListCall> {
    let mut chosen = records(machine);
    chosen.retain(|place| fields::has_unstored(file(machine, place.0), content(machine, *place)));
    let place = random.pick_any(&chosen)?;
    let user = changer(random, machine, place)?;
    let call = with_option(b'H', call_at(machine, b"A1", user, place));
    Some(naming(call, file(machine, place.0), &[], Vec::new()))
}

/// RE of a user who has ET data.
fn read_et_data(random: &mut Random, machine: &Machine) -> Option<ListCall> {
    let has_data = |number: &u8| user(machine, *number).et_length > 0;
    let users: Vec<u8> = USERS.filter(has_data).collect();
    let user = random.pick_any(&users)?;
    Some(ListCall {
        record: vec![0xEE; random.pick(&[64, 66])],
        ..without_buffers(call_at(machine, b"RE", user, (0, 0)))
    })
}

/// ET of a user whose sequence is at its end or one before.
fn end_at_last_sequence(random: &mut Random, machine: &Machine) -> Option<ListCall> {
    let users: Vec<u8> = (1u8..)
        .zip(&machine.state.users)
        .filter(|(number, user)| {
            user.session && user.sequence >= u32::MAX - 1 && is_able(machine, *number)
        })
        .map(|(number, _)| number)
        .collect();
    let user = random.pick_any(&users)?;
    Some(without_buffers(call_at(machine, b"ET", user, (0, 0))))
}

/// PE of a user in a transaction, or of one who is access-only.
fn set_ready(random: &mut Random, machine: &Machine) -> Option<ListCall> {
    let user = somebody(random, |number| {
        let user = user(machine, number);
        let in_transaction = user.in_transaction && is_able(machine, number);
        in_transaction || (user.session && user.access_only)
    })?;
    Some(without_buffers(call_at(machine, b"PE", user, (0, 0))))
}

/// A call of a user who is ready and marked, or ready and access-only: no list has one.
fn call_ready_and_barred(random: &mut Random, machine: &Machine) -> Option<ListCall> {
    let user = somebody(random, |number| {
        let user = user(machine, number);
        user.ready && (user.overdue || user.access_only)
    })?;
    let command = random.pick(&[b"L1", b"PE", b"HI", b"ET"]);
    Some(without_buffers(call_at(machine, command, user, (0, 1))))
}

/// A call of a ready user, mostly one that ends his transaction: ET, sometimes with too much data, BT, OP or CL.
fn end_ready(random: &mut Random, machine: &Machine) -> Option<ListCall> {
    let user = somebody(random, |number| user(machine, number).ready)?;
    let command = random.pick(&[
        b"ET", b"ET", b"ET", b"BT", b"BT", b"OP", b"CL", b"PE", b"PE", b"PE",
    ]);
    let length = match command {
        b"ET" => random.pick(&[0, 1, 64, 65, 65, 66]),
        _ => 0,
    };
    Some(ListCall {
        record: random.bytes(length),
        ..without_buffers(call_at(machine, command, user, (0, 0)))
    })
}

/// L1 with option `C` of an ISN that somebody holds unchanged, with a record if any, or added; where nobody does, of any.
/// Rarely the file or the ISN is none, or the record buffer too short.
fn read_committed(random: &mut Random, machine: &Machine) -> Option<ListCall> {
    let records = records(machine);
    let held = match random.once_in(3) {
        true => places_of(machine, |entry| entry.changed && !entry.existed),
        false => preferred(places_of(machine, |entry| !entry.changed), |place| {
            records.contains(place)
        }),
    };
    let place = match random.pick_any(&held) {
        Some(place) => place,
        None => random.pick_any(&places(machine))?,
    };
    let mut list_call = committed_reading(random, machine, place)?;
    match random.below(12) {
        0 => list_call.call.isn = random.pick(&[0, file(machine, place.0).max_isn + 1]),
        1 => list_call.call.file = random.pick(&[0, 17]),
        2 => drop(list_call.record.pop()),
        _ => {}
    }
    Some(list_call)
}

/// The same of an ISN that is changed and had a record before, which is in an image; of an emptied one, if any, every
/// second time.
fn read_image(random: &mut Random, machine: &Machine) -> Option<ListCall> {
    let imaged = places_of(machine, |entry| entry.changed && entry.existed);
    let records = records(machine);
    let imaged = match random.once_in(2) {
        true => preferred(imaged, |place| !records.contains(place)),
        false => imaged,
    };
    let place = random.pick_any(&imaged)?;
    committed_reading(random, machine, place)
}

/// The same of an ISN that somebody has added and emptied.
fn read_added_and_emptied(random: &mut Random, machine: &Machine) -> Option<ListCall> {
    let clock = machine.state.clock;
    let records = records(machine);
    let mut added = places_of(machine, |entry| {
        entry.changed && !entry.existed && !user(machine, entry.user).is_late(clock)
    });
    added.retain(|place| !records.contains(place));
    let place = random.pick_any(&added)?;
    committed_reading(random, machine, place)
}

/// The same of an ISN that was changed by one whom the clock backs out before the record is looked at.
fn read_behind_back_out(random: &mut Random, machine: &Machine) -> Option<ListCall> {
    let clock = machine.state.clock;
    let late = places_of(machine, |entry| {
        entry.changed && user(machine, entry.user).is_late(clock)
    });
    let place = random.pick_any(&late)?;
    committed_reading(random, machine, place)
}

/// The same by an access-only user, of an ISN where there is something to read.
fn read_by_access_only(random: &mut Random, machine: &Machine) -> Option<ListCall> {
    let user = somebody(random, |number| {
        let user = user(machine, number);
        user.session && user.access_only && !user.overdue && !user.ready
    })?;
    let mut there = places(machine);
    there.retain(|(index, isn)| {
        let number = file(machine, *index).number;
        !machine.committed(number, *isn).is_empty()
    });
    let place = random.pick_any(&there)?;
    Some(committed_reading_by(random, machine, user, place))
}

/// The ISNs of the entries that are so.
fn places_of(machine: &Machine, so: impl Fn(&Entry) -> bool) -> Vec<Place> {
    let place = |entry: &Entry| {
        let index = machine.state.definition.file_index(entry.file)?;
        Some((index, entry.isn))
    };
    let entries = machine.entries().iter().filter(|entry| so(entry));
    entries.filter_map(place).collect()
}

/// L1 with option `C` by the holder of the ISN, by one who is ready, or by another user.
fn committed_reading(random: &mut Random, machine: &Machine, place: Place) -> Option<ListCall> {
    let chosen = match random.below(8) {
        0 | 1 => holder(machine, place),
        2 => somebody(random, |number| user(machine, number).ready),
        _ => None,
    };
    let user = match chosen {
        Some(user) => user,
        None => somebody(random, |number| is_able(machine, number))?,
    };
    Some(committed_reading_by(random, machine, user, place))
}

/// L1 with option `C` of all fields, or of none.
fn committed_reading_by(
    random: &mut Random,
    machine: &Machine,
    user: u8,
    place: Place,
) -> ListCall {
    let call = with_option(b'C', call_at(machine, b"L1", user, place));
    let file = file(machine, place.0);
    let elements = match random.once_in(8) {
        true => Vec::new(),
        false => all_fields(file),
    };
    let length = fields::named_length(file, &elements) + random.below(2) as usize;
    naming(call, file, &elements, vec![0xEE; length])
}
