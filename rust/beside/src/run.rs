//! Runs by seed: for each a random list, calls on states that nobody set up, and set-ups.

use crate::compare::{compare, Both};
use crate::twin::{self, Twin};
use second::any_state;
use second::compare as second_compare;
use second::definition::{self, Definition, File};
use second::machine::Machine;
use second::nucleus;
use second::random::{self, List, ListCall, Random};
use second::state::{Call, State};
use second::store;
use std::collections::BTreeMap;
use towungbe::raw;

/// One seed in so many has a list on a large table too.
const LARGE: u64 = 8;

/// Calls and set-ups of one seed, beside its list.
const ANY: usize = 12;
const AIMED: usize = 12;
const LINED: usize = 8;
const UNKNOWN: usize = 2;
const SET_UPS: usize = 4;

/// So many ISNs of each file are read after a list.
const FIRST_ISNS: u16 = 5;

/// How often each response came, by the second implementation's labels, which tell the two rows of 113 apart.
#[derive(Debug, Default)]
pub struct Counts {
    pub responses: BTreeMap<String, u64>,
    pub calls: u64,
    pub set_ups: u64,
    pub seeds: u64,
}

impl Counts {
    fn call(&mut self, label: String) {
        self.calls += 1;
        *self.responses.entry(label).or_default() += 1;
    }

    fn set_up(&mut self, response: u16) {
        self.set_ups += 1;
        *self.responses.entry(response.to_string()).or_default() += 1;
    }

    /// The responses of the documents that never came.
    pub fn missing(&self) -> Vec<&'static str> {
        let wanted = second_compare::REACHED
            .into_iter()
            .chain(["10", "11", "12"]);
        wanted
            .filter(|label| !self.responses.contains_key(*label))
            .collect()
    }
}

/// Compares seeds from `seed` on until `count` calls are made. The error names the seed.
pub fn run(seed: u64, count: u64) -> Result<Counts, String> {
    let mut counts = Counts::default();
    while counts.calls < count {
        let seed = seed.wrapping_add(counts.seeds);
        run_seed(seed, &mut counts).map_err(|error| format!("seed {seed}, {error}"))?;
        counts.seeds += 1;
    }
    Ok(counts)
}

fn run_seed(seed: u64, counts: &mut Counts) -> Result<(), String> {
    run_list(&random::list(seed), counts).map_err(|error| format!("list: {error}"))?;
    if seed.is_multiple_of(LARGE) {
        run_list(&random::large_list(seed), counts)
            .map_err(|error| format!("large list: {error}"))?;
    }
    let random = &mut Random::new(seed);
    for place in 1..=ANY {
        let (mut machine, _) = any_state::machine(random);
        let list_call = any_state::call(random, &machine);
        let twin = &mut Twin::of(&machine);
        step(&mut machine, twin, &list_call, counts).map_err(at("state", place))?;
    }
    for place in 1..=AIMED {
        let (mut machine, _, list_call) = any_state::aimed(random);
        let twin = &mut Twin::of(&machine);
        step(&mut machine, twin, &list_call, counts).map_err(at("aimed state", place))?;
    }
    for place in 1..=LINED {
        let (mut machine, _, list_call) = any_state::aimed_at_line(random);
        let twin = &mut Twin::of(&machine);
        step(&mut machine, twin, &list_call, counts).map_err(at("state with a line", place))?;
    }
    for place in 1..=UNKNOWN {
        unknown_byte(random, counts).map_err(at("unknown byte", place))?;
    }
    for place in 1..=SET_UPS {
        set_up(random, counts).map_err(at("set-up", place))?;
    }
    Ok(())
}

fn at(what: &str, place: usize) -> impl Fn(String) -> String + '_ {
    move |error| format!("{what} {place}: {error}")
}

/// Makes one call on both and compares.
pub fn step(
    machine: &mut Machine,
    twin: &mut Twin,
    list_call: &ListCall,
    counts: &mut Counts,
) -> Result<(), String> {
    let ListCall { call, format, .. } = list_call;
    let (before, twin_before) = (machine.clone(), twin.clone());
    let mut record = list_call.record.clone();
    let answer = machine.call(call, format, &mut record);
    counts.call(second_compare::label(machine, call, &answer));
    let given = twin.call(list_call)?;
    compare(&Both {
        call,
        before: &before,
        after: machine,
        answer: &answer,
        record: &record,
        twin_before: &twin_before,
        twin,
        given: &given,
    })
}

/// A list, set up by each implementation itself.
fn run_list(list: &List, counts: &mut Counts) -> Result<(), String> {
    let mut machine = second_compare::machine(list)?;
    let fresh = Machine {
        store: vec![second_compare::FILL; list.store],
        ..machine.clone()
    };
    let twin = &mut Twin::of(&fresh);
    set_up_both(&list.table, twin, Ok(&machine.state), &machine.store)?;
    for (place, list_call) in (1..).zip(&list.calls) {
        step(&mut machine, twin, list_call, counts).map_err(at("call", place))?;
    }
    for (place, list_call) in (1..).zip(committed_readings(&machine)) {
        step(&mut machine, twin, &list_call, counts).map_err(at("committed reading", place))?;
    }
    Ok(())
}

/// L1 with option `C` of the first ISNs of each file, and of all that are held, by a user whom no list has.
fn committed_readings(machine: &Machine) -> Vec<ListCall> {
    let files = machine.state.definition.used_files();
    let reading = |(file, isn): (&File, u16)| {
        let fields: Vec<usize> = (0..file.used_fields().len()).collect();
        let call = Call {
            command: *b"L1",
            option: b'C',
            user: 31,
            file: file.number,
            isn,
            ..re_of_user_1().call
        };
        ListCall {
            call,
            format: random::format_of(file, &fields),
            record: vec![0xEE; file.record_length()],
        }
    };
    let mut readings = Vec::new();
    for file in files {
        let first = 1..=file.max_isn.min(FIRST_ISNS);
        let entries = machine.entries().iter();
        let held = entries.filter(|entry| entry.file == file.number && entry.isn > FIRST_ISNS);
        let isns = first.chain(held.map(|entry| entry.isn));
        readings.extend(isns.map(|isn| reading((file, isn))));
    }
    readings
}

/// Sets the twin up by the library and compares with what the second implementation gave and left of the store.
pub fn set_up_both(
    table: &[u8],
    twin: &mut Twin,
    expected: Result<&State, u16>,
    store: &[u8],
) -> Result<(), String> {
    let before = twin.clone();
    let response = twin.set_up(table);
    let wanted = expected.err().unwrap_or(0);
    if response != u32::from(wanted) {
        return Err(format!(
            "set-up answers {response}, the second implementation {wanted}"
        ));
    }
    let same_lent = twin.queue == before.queue && twin.images == before.images;
    if twin.store.items() != store || !same_lent || !twin.guards_stand() {
        return Err(format!(
            "set-up that answers {response} leaves other buffers"
        ));
    }
    let is_good = match expected {
        Ok(state) => is_fresh(&twin.state, state),
        Err(_) => accepts_nothing(twin),
    };
    match is_good {
        true => Ok(()),
        false => Err(format!(
            "set-up that answers {response} leaves another state"
        )),
    }
}

/// The table, and a fresh nucleus; what belongs to no session means nothing.
fn is_fresh(found: &raw::State, expected: &State) -> bool {
    let expected = twin::state(expected);
    let used = usize::from(expected.count).min(raw::FILES);
    let mut files = found.files.iter().zip(&expected.files).take(used);
    let same_file = |(found, expected): (&raw::File, &raw::File)| {
        let count = usize::from(expected.count).min(raw::FIELDS);
        (found.number, found.count, found.max_isn)
            == (expected.number, expected.count, expected.max_isn)
            && found.fields[..count] == expected.fields[..count]
    };
    let idle = |user: &raw::User| !user.session && !user.transaction.active && !user.overdue;
    (found.count, found.clock, found.entries) == (expected.count, 0, 0)
        && files.all(same_file)
        && found.users.iter().all(idle)
        && found.wait_queue == expected.wait_queue
        && found.et_data.iter().all(|et_data| et_data.length == 0)
        && found.last_assigned[..used].iter().all(|mark| *mark == 0)
}

/// Nothing is set up: a call answers 12, whatever the buffers are.
fn accepts_nothing(twin: &mut Twin) -> bool {
    let given = twin.call(&re_of_user_1());
    given.is_ok_and(|given| given.answer.response == 12)
}

fn re_of_user_1() -> ListCall {
    let call = Call {
        command: *b"RE",
        option: b' ',
        user: 1,
        file: 0,
        isn: 0,
        limit: 0,
        clock: 0,
    };
    let (format, record) = (Vec::new(), vec![0; 64]);
    ListCall {
        call,
        format,
        record,
    }
}

/// A set-up with a table that may break a rule, and buffers that may be too short; and the sizes that are needed.
fn set_up(random: &mut Random, counts: &mut Counts) -> Result<(), String> {
    let table = match random.once_in(2) {
        true => random::table(random),
        false => any_state::table(random),
    };
    let read = definition::read_table(&table);
    let capacity = random.pick(&[0, 1, 2, 3, 5, 256, 257, u32::MAX]);
    let (mut machine, needed) = lent(random, read.unwrap_or_default(), capacity);
    let twin = &mut Twin::of(&machine);
    compare_sizes(&table, twin.capacity, needed)?;
    let set_up = nucleus::set_up(
        &table,
        capacity,
        &mut machine.store,
        &mut machine.queue,
        &mut machine.images,
    );
    counts.set_up(set_up.err().unwrap_or(0));
    let expected = set_up.as_ref().map_err(|response| *response);
    set_up_both(&table, twin, expected, &machine.store)
}

/// Buffers for a set-up, each of them now and then too short, and the lengths that it needs.
fn lent(random: &mut Random, definition: Definition, capacity: u32) -> (Machine, [usize; 3]) {
    let entries = capacity.min(257) as usize;
    let needed = [
        store::store_size(&definition),
        entries,
        entries * definition.greatest_record_length(),
    ];
    let spare = random.pick(&[0, 0, 0, 1]);
    let [store, queue, images] = needed.map(|needed| match random.once_in(8) {
        true => needed.saturating_sub(1),
        false => needed + spare,
    });
    let machine = Machine {
        state: State::fresh(definition),
        capacity,
        store: vec![second_compare::FILL; store],
        queue: vec![Default::default(); queue],
        images: vec![second_compare::FILL; images],
    };
    (machine, needed)
}

/// The sizes that the library gives: none for a table or a capacity that set-up refuses.
fn compare_sizes(table: &[u8], capacity: usize, needed: [usize; 3]) -> Result<(), String> {
    let [store, _, images] = needed;
    let expected = match capacity {
        1..=raw::MAX_CAPACITY => [store, images],
        _ => [store, 0],
    };
    let found = [raw::store_size(table), raw::image_size(table, capacity)];
    match found == expected {
        true => Ok(()),
        false => Err(format!(
            "store and images need {found:?}, the second implementation says {expected:?}"
        )),
    }
}

/// A byte that numbers no format or option, in a place of the kept table. Behind a count it makes no difference; in use it
/// makes the table invalid.
fn unknown_byte(random: &mut Random, counts: &mut Counts) -> Result<(), String> {
    let (mut machine, _, list_call) = any_state::aimed(random);
    let twin = &mut Twin::of(&machine);
    let (files, file) = any_place(random, twin.state.count, raw::FILES);
    let (fields, field) = any_place(random, twin.state.files[file].count, raw::FIELDS);
    spoil(random, &mut twin.state.files[file].fields[field]);
    let found = match file < files && field < fields {
        true => refused(twin, &list_call, counts),
        false => step(&mut machine, twin, &list_call, counts),
    };
    found.map_err(at(&format!("file {file}, field"), field))
}

/// How many places are in use, and one of these or the first behind them.
fn any_place(random: &mut Random, count: u8, places: usize) -> (usize, usize) {
    let used = usize::from(count).min(places);
    let last = used.min(places - 1);
    (used, random.between(0, last as u64) as usize)
}

fn spoil(random: &mut Random, field: &mut raw::Field) {
    match random.once_in(2) {
        true => field.format = random.between(4, 255) as u8,
        false => field.option = random.between(3, 255) as u8,
    }
}

/// The second implementation keeps other bytes, so the answer is document 01's: 12, and all is left as it was.
fn refused(twin: &mut Twin, list_call: &ListCall, counts: &mut Counts) -> Result<(), String> {
    let before = twin.clone();
    let given = twin.call(list_call)?;
    counts.call(given.answer.response.to_string());
    let stays = before.state == twin.state
        && before.store == twin.store
        && before.queue == twin.queue
        && before.images == twin.images
        && given.record.items() == list_call.record
        && given.record.guards_stand();
    match (given.answer.response, stays) {
        (12, true) => Ok(()),
        (12, false) => Err("12 leaves something changed".to_string()),
        (response, _) => Err(format!("a byte is unknown, and the answer {response}")),
    }
}
