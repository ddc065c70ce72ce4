//! Passes over a whole file: the unique check, and N1's search for a free ISN, each against the same pass in Rust.

use crate::measure::{measure, Runner, Times};
use crate::pair::Pair;
use crate::single::{self, MAX_ISN};
use crate::steps::{alike_code, ring_code, Step};
use crate::tables::{self, SLOT};
use crate::work::{Phase, Work};
use std::hint::black_box;
use towungbe::Command;

const RECORDS: u16 = 4000;
const UNUSED: u64 = 100_000;

/// Times of a pass, for one ISN, by library, second and Rust.
pub struct Scan {
    pub name: &'static str,
    pub times: Vec<Times>,
}

pub fn measure_all(rounds: usize) -> Vec<Scan> {
    vec![
        unique("unique check, codes of random letters", ring_code, rounds),
        unique(
            "unique check, codes alike in 4 of 8 letters",
            alike_code,
            rounds,
        ),
        free_isn(rounds),
    ]
}

/// A1 of the unique field without A1 of a plain one as long.
fn unique(name: &'static str, code: fn(u64) -> [u8; 8], rounds: usize) -> Scan {
    let table = tables::households(1, RECORDS);
    let start = Pair::with_households(&table, 1, RECORDS, code);
    let with = change(&start, b"RC.", code(UNUSED));
    let without = change(&start, b"RD.", code(UNUSED));
    let store = &start.nucleus.buffers().store;
    let value = code(UNUSED);
    let slices = Runner::repeated("Rust", 20, || {
        let (store, value) = black_box((&store[..], &value[..]));
        assert!(!black_box(has_value(store, SLOT, 1, value)));
    });
    Scan {
        name,
        times: each_of(RECORDS, rounds_of(with, without, slices, rounds)),
    }
}

fn change(start: &Pair, format: &'static [u8], value: [u8; 8]) -> Work {
    let change = Phase::timed(vec![Step::change(1, 1, RECORDS, format, value.to_vec())]);
    let back_out = Phase::untimed(vec![Step::end(Command::Bt, 1)]);
    Work::of_cycle(start, &[change, back_out], 50)
}

/// Whether a slot has the value at an offset: `==` on slices.
fn has_value(store: &[u8], slot: usize, offset: usize, value: &[u8]) -> bool {
    let end = offset + value.len();
    store
        .chunks_exact(slot)
        .any(|slot| slot[offset..end] == *value)
}

/// N1 that goes round through the file without N1 that finds the next ISN free.
fn free_isn(rounds: usize) -> Scan {
    let full = single::full_plain();
    let (with, without) = (single::add_at_mark(&full), single::add_behind_mark(&full));
    let store = &full.nucleus.buffers().store[SLOT..];
    let bytes = Runner::repeated("Rust", 20, || {
        let store = black_box(store);
        let free = store.chunks_exact(SLOT).position(|slot| slot[0] != 1);
        assert_eq!(black_box(free), None);
    });
    Scan {
        name: "N1's search, only the mark's own ISN free",
        times: each_of(MAX_ISN - 1, rounds_of(with, without, bytes, rounds)),
    }
}

fn each_of(isns: u16, times: Vec<Times>) -> Vec<Times> {
    times.iter().map(|times| times.each_of(isns)).collect()
}

/// Library and second, each with one work less another, and Rust.
fn rounds_of(with: Work, without: Work, rust: Runner, rounds: usize) -> Vec<Times> {
    let runners = vec![
        with.library(),
        without.library(),
        with.second(),
        without.second(),
        rust,
    ];
    let times = measure(vec![runners], rounds).concat();
    vec![
        times[0].without(&times[1]),
        times[2].without(&times[3]),
        times[4].clone(),
    ]
}
