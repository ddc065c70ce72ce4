//! What single calls cost, by library and by second.

use crate::measure::{measure, Times};
use crate::pair::Pair;
use crate::steps::{feed_account, household, ring_code, Step};
use crate::tables::{self, CHANGED, PLAIN};
use crate::work::{Phase, Work};
use towungbe::Command;

/// The highest ISN that a file can have.
pub const MAX_ISN: u16 = 4095;
/// A number above those of all households.
const UNUSED: u64 = 100_000;

/// Times of one call, by library and second.
pub struct Single {
    pub name: &'static str,
    pub times: Vec<Times>,
}

pub fn measure_all(rounds: usize) -> Vec<Single> {
    let rows = rows();
    let runners = rows
        .iter()
        .map(|(_, work)| vec![work.library(), work.second()]);
    let times = measure(runners.collect(), rounds);
    let names = rows.iter().map(|(name, _)| *name);
    names
        .zip(times)
        .map(|(name, times)| Single { name, times })
        .collect()
}

/// A new row is one more here.
fn rows() -> [(&'static str, Work); 13] {
    let small = file_of(132, 100);
    let large = file_of(4032, 4000);
    let full = file_of(MAX_ISN, MAX_ISN);
    let plain = full_plain();
    [
        (
            "refused (22)",
            Work::of_call(&small, Step::refused(), 22, 500),
        ),
        (
            "L1 of 5 fields",
            Work::of_call(&small, Step::read(Command::L1, 1, 1, 1), 0, 500),
        ),
        ("L4 of 5 fields, a new hold", hold_and_read(&small)),
        ("A1 of 2 plain fields", change(&small, PLAIN)),
        (
            "A1 of 2 fields, one unique, 100 records",
            change(&small, CHANGED),
        ),
        (
            "A1 of 2 fields, one unique, 4,000 records",
            change(&large, CHANGED),
        ),
        ("N1, highest ISN 4,095, no record", add_to_empty()),
        (
            "N1, highest ISN 4,095, full (75)",
            Work::of_call(&full, added(), 75, 40),
        ),
        (
            "N1, full but for the ISN behind the mark, no unique field",
            add_behind_mark(&plain),
        ),
        (
            "N1, full but for the mark's own ISN, no unique field",
            add_at_mark(&plain),
        ),
        ("ET of 1 entry", end(&small, 1)),
        ("ET of 64 entries", end(&small, 64)),
        ("BT of 64 changed entries", back_out(&small)),
    ]
}

fn file_of(max_isn: u16, records: u16) -> Pair {
    Pair::with_households(&tables::households(1, max_isn), 1, records, ring_code)
}

/// A full file without a unique field; N1's mark is at the highest ISN.
pub fn full_plain() -> Pair {
    Pair::with_households(&tables::plain_households(MAX_ISN), 1, MAX_ISN, ring_code)
}

fn added() -> Step {
    Step::add(1, 1, household(ring_code(UNUSED), UNUSED))
}

fn ended(command: Command) -> Phase {
    Phase::untimed(vec![Step::end(command, 1)])
}

fn hold_and_read(start: &Pair) -> Work {
    let read = Phase::timed(vec![Step::read(Command::L4, 1, 1, 1)]);
    let release = Phase::untimed(vec![Step::hold(Command::Ri, 1, 1, 1)]);
    Work::of_cycle(start, &[read, release], 300)
}

/// The first change of a held record, which keeps its image.
fn change(start: &Pair, format: &'static [u8]) -> Work {
    let record = match format {
        CHANGED => [&ring_code(UNUSED)[..], &feed_account(UNUSED)].concat(),
        _ => [&feed_account(UNUSED)[..], &[0, 0, 1, 0]].concat(),
    };
    let hold = Phase::untimed(vec![Step::read(Command::L4, 1, 1, 50)]);
    let change = Phase::timed(vec![Step::change(1, 1, 50, format, record)]);
    Work::of_cycle(start, &[hold, change, ended(Command::Bt)], 200)
}

fn add_to_empty() -> Work {
    let start = Pair::new(&tables::households(1, MAX_ISN), 64);
    let add = Phase::timed(vec![added()]);
    Work::of_cycle(&start, &[add, ended(Command::Bt)], 100)
}

/// Each ISN in turn is emptied just before N1 comes to it.
pub fn add_behind_mark(full: &Pair) -> Work {
    let cycle = |isn| {
        let empty = vec![Step::empty(1, 1, isn), Step::end(Command::Et, 1)];
        let add = Phase::timed(vec![added()]);
        [Phase::untimed(empty), add, ended(Command::Et)]
    };
    Work::new(full, (1..=50).flat_map(cycle).collect(), 0)
}

/// N1 goes round through the whole file: a back-out does not turn its mark back.
pub fn add_at_mark(full: &Pair) -> Work {
    let mut start = full.clone();
    start.run_good(&[Step::empty(1, 1, MAX_ISN), Step::end(Command::Et, 1)]);
    let add = Phase::timed(vec![added()]);
    Work::of_cycle(&start, &[add, ended(Command::Bt)], 50)
}

fn end(start: &Pair, entries: u16) -> Work {
    let hold = |isn| Step::hold(Command::Hi, 1, 1, isn);
    let holds = Phase::untimed((1..=entries).map(hold).collect());
    let end = Phase::timed(vec![Step::end(Command::Et, 1)]);
    Work::of_cycle(start, &[holds, end], 640 / usize::from(entries).max(4))
}

fn back_out(start: &Pair) -> Work {
    let record = || [&feed_account(UNUSED)[..], &[0, 0, 1, 0]].concat();
    let change = |isn| Step::change(1, 1, isn, PLAIN, record());
    let changes = Phase::untimed((1..=64).map(change).collect());
    let back_out = Phase::timed(vec![Step::end(Command::Bt, 1)]);
    Work::of_cycle(start, &[changes, back_out], 10)
}
