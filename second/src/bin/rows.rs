//! Calls and what this implementation makes of them, as an antt module of laws: the definitions of crates/nucleus
//! compute the same. For each seed a random list, calls on states that nobody set up, and set-ups. The comments at the
//! end say how often each response and each case came.

use second::any_state;
use second::arguments;
use second::cases;
use second::compare::{self, Counts};
use second::definition;
use second::hold::Entry;
use second::machine::Machine;
use second::nucleus;
use second::random::{self, ListCall, Random};
use second::state::Answer;
use second::store;
use second::terms;
use std::process::ExitCode;

const USAGE: &str = "usage: rows FIRST COUNT [CALLS]";

/// Single calls, and set-ups, for each seed; and single calls that are aimed at a rule, or at the line.
const SINGLES: usize = 3;
const AIMED: usize = 6;
const LINED: usize = 5;

/// How many ISNs that are held are asked for their committed record, in each list and state.
const HELD_PLACES: usize = 3;

/// What the printed terms mean, and the definitions that a law has to open.
const HEADER: &str = include_str!("rows_header.txt");
const UNFOLDING: &str = include_str!("rows_unfolding.txt");

fn main() -> ExitCode {
    let arguments: Vec<String> = std::env::args().skip(1).collect();
    let words: Vec<&str> = arguments.iter().map(String::as_str).collect();
    let numbers = match words[..] {
        [first, count] => arguments::numbers(first, count).map(|range| (range, u64::MAX)),
        [first, count, calls] => arguments::numbers(first, count).zip(calls.parse().ok()),
        _ => None,
    };
    let done = match numbers {
        Some(((first, count), calls)) => module(first, count, calls),
        None => Err(USAGE.to_string()),
    };
    arguments::exit_code(done.map(|text| print!("{text}")))
}

/// How often each response came, and each case.
#[derive(Default)]
struct Tally {
    responses: Counts,
    cases: Counts,
}

impl Tally {
    fn response(&mut self, label: String) {
        *self.responses.entry(label).or_default() += 1;
    }

    /// Makes the call and counts what it was.
    fn call(&mut self, machine: &mut Machine, list_call: &ListCall) -> (Answer, Vec<u8>) {
        let before = machine.clone();
        let mut record = list_call.record.clone();
        let answer = machine.call(&list_call.call, &list_call.format, &mut record);
        self.response(compare::label(machine, &list_call.call, &answer));
        for case in cases::of(&before, machine, list_call, &answer) {
            *self.cases.entry(case).or_default() += 1;
        }
        (answer, record)
    }

    /// The committed records at these places, counted by what they are pieces of.
    fn parts(&mut self, machine: &Machine, wanted: &[(u8, u16)]) -> Vec<Vec<u8>> {
        let part = |(file, isn): &(u8, u16)| {
            let case = cases::of_part(machine, *file, *isn);
            *self.cases.entry(case).or_default() += 1;
            machine.committed(*file, *isn).to_vec()
        };
        wanted.iter().map(part).collect()
    }

    fn text(&self) -> String {
        let lines = |word: &str, counts: &Counts| -> String {
            let line = |(label, count)| format!("-- {word} {label}: {count}\n");
            counts.iter().map(line).collect()
        };
        let cases = lines("case", &self.cases);
        let responses = lines("response", &self.responses);
        let calls = self.responses.values().sum::<u64>();
        format!("\n{cases}{responses}-- calls: {calls}\n")
    }
}

/// The laws of these seeds, of each list the first `calls` calls, and behind them what came how often.
fn module(first: u64, count: u64, calls: u64) -> Result<String, String> {
    let mut text = HEADER.to_string();
    let tally = &mut Tally::default();
    for number in 0..count {
        let seed = first.wrapping_add(number);
        text += &list_law(seed, calls, tally)?;
        let random = &mut Random::new(seed);
        for place in 1..=SINGLES {
            let (machine, _) = any_state::machine(random);
            let list_call = any_state::call(random, &machine);
            text += &state_law(&format!("state-{seed}-{place}"), machine, &list_call, tally);
            text += &set_up_law(&format!("set-up-{seed}-{place}"), random, tally);
        }
        for place in 1..=AIMED {
            let (machine, _, list_call) = any_state::aimed(random);
            text += &state_law(&format!("aimed-{seed}-{place}"), machine, &list_call, tally);
        }
        for place in 1..=LINED {
            let (machine, _, list_call) = any_state::aimed_at_line(random);
            text += &state_law(&format!("lined-{seed}-{place}"), machine, &list_call, tally);
        }
    }
    Ok(text + &tally.text())
}

fn law(name: &str, computed: &str, expected: &str) -> String {
    format!("\n{name} :\n  {computed}\n  ≡ {expected}\n{UNFOLDING}{name} = refl\n")
}

fn list_law(seed: u64, calls: u64, tally: &mut Tally) -> Result<String, String> {
    let mut list = random::list(seed);
    list.calls.truncate(calls as usize);
    let mut machine = compare::machine(&list)?;
    let calls = list.calls.iter();
    let answers: Vec<_> = calls
        .map(|list_call| tally.call(&mut machine, list_call))
        .collect();
    let wanted = wanted(&machine);
    let parts = tally.parts(&machine, &wanted);
    let fill = |length| terms::bytes(&vec![compare::FILL; length]);
    let computed = format!(
        "list_outcome {} {} {} {} {} {} {}",
        terms::bytes(&list.table),
        list.capacity,
        fill(list.store),
        list.queue,
        fill(list.images),
        terms::wanted(&wanted),
        terms::list(&list.calls, terms::given)
    );
    let expected = terms::outcome(&answers, &machine, &parts);
    Ok(law(&format!("list-{seed}"), &computed, &expected))
}

fn state_law(name: &str, mut machine: Machine, list_call: &ListCall, tally: &mut Tally) -> String {
    let wanted = wanted(&machine);
    let computed = format!(
        "call_outcome {} {} ({}) ({})",
        machine.capacity,
        terms::wanted(&wanted),
        terms::given(list_call),
        terms::nucleus(&machine)
    );
    let mut parts = tally.parts(&machine, &wanted);
    let answered = tally.call(&mut machine, list_call);
    parts.extend(tally.parts(&machine, &wanted));
    let expected = terms::outcome(&[answered], &machine, &parts);
    law(name, &computed, &expected)
}

/// A few places of which the committed record is asked: the first entries', the changed before the others; an ISN of the
/// first file and one above its highest; and one of a file that there is not.
fn wanted(machine: &Machine) -> Vec<(u8, u16)> {
    let entries = machine.queue.iter().take(machine.state.entries as usize);
    let mut entries: Vec<&Entry> = entries.collect();
    entries.sort_by_key(|entry| !entry.changed);
    let places = entries.iter().map(|entry| (entry.file, entry.isn));
    let mut wanted: Vec<(u8, u16)> = places.take(HELD_PLACES).collect();
    let file = &machine.state.definition.files[0];
    wanted.push((file.number, 1));
    wanted.push((file.number, file.max_isn.saturating_add(1)));
    wanted.push((17, 1));
    wanted
}

/// A set-up with a table that may break a rule, and buffers that may be too short.
fn set_up_law(name: &str, random: &mut Random, tally: &mut Tally) -> String {
    let table = match random.once_in(4) {
        true => random::table(random),
        false => any_state::table(random),
    };
    let definition = definition::read_table(&table).unwrap_or_default();
    let capacity = random.pick(&[0, 1, 2, 3, 5, 257]);
    let mut lent =
        |needed: usize| (needed.min(300) + random.pick(&[0, 1, 1, 1, 2, 3])).saturating_sub(1);
    let mut store = vec![compare::FILL; lent(store::store_size(&definition))];
    let mut queue = vec![Entry::default(); lent(capacity as usize)];
    let mut images =
        vec![compare::FILL; lent(capacity as usize * definition.greatest_record_length())];
    let before = terms::lent(&store, &queue, &images);
    let set_up = nucleus::set_up(&table, capacity, &mut store, &mut queue, &mut images);
    let response = set_up.err().unwrap_or(0);
    tally.response(response.to_string());
    law(
        name,
        &format!("made_by {capacity} {before} {}", terms::bytes(&table)),
        &format!("made {response} {}", terms::lent(&store, &queue, &images)),
    )
}
