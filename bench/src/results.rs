//! All that is measured.

use crate::checks::{self, Checks, Size};
use crate::clerk::{self, Clerk};
use crate::growth::Growth;
use crate::scans::{self, Scan};
use crate::single::{self, Single};

/// What the tables show.
const RECORDS: [u16; 3] = [100, 1000, 4000];
const ENTRIES: [u16; 3] = [0, 10, 256];
/// What is measured beside it for the plots.
const MORE_RECORDS: [u16; 6] = [500, 1500, 2000, 2500, 3000, 3500];
const MORE_ENTRIES: [u16; 7] = [32, 64, 96, 128, 160, 192, 224];

pub struct Results {
    pub rounds: usize,
    pub clerks: Vec<Clerk>,
    pub singles: Vec<Single>,
    pub checks: Vec<Checks>,
    pub scans: Vec<Scan>,
    pub by_entries: Growth,
    pub by_records: Growth,
}

impl Results {
    pub fn measure(rounds: usize) -> Results {
        let part = |name: &str| eprintln!("bench: {name} ..");
        part("the clerk's work");
        let clerks = clerk::measure_all(&clerk_sizes(), rounds);
        part("single costs");
        let singles = single::measure_all(rounds);
        part("checks of every call");
        let checks = checks::measure_all(&check_sizes(), rounds);
        part("passes over a file");
        let scans = scans::measure_all(rounds);
        let (by_entries, by_records) =
            (Growth::with_entries(&checks), Growth::with_records(&clerks));
        Results {
            rounds,
            clerks: clerks
                .into_iter()
                .filter(|clerk| RECORDS.contains(&clerk.records))
                .collect(),
            singles,
            checks: checks
                .into_iter()
                .filter(|checks| ENTRIES.contains(&checks.size.entries))
                .collect(),
            scans,
            by_entries,
            by_records,
        }
    }
}

/// Files, and records of each.
fn clerk_sizes() -> Vec<(u8, u16)> {
    let mut sizes: Vec<(u8, u16)> = [RECORDS.as_slice(), &MORE_RECORDS]
        .concat()
        .into_iter()
        .map(|records| (1, records))
        .collect();
    sizes.sort();
    sizes.extend(RECORDS.map(|records| (4, records)));
    sizes
}

fn check_sizes() -> Vec<Size> {
    let mut sizes = Vec::new();
    for files in [1, 4, 16] {
        for fields in [5, 16] {
            let size = |entries| Size {
                files,
                fields,
                entries,
            };
            sizes.extend(ENTRIES.map(size));
            if (files, fields) == (4, 5) {
                sizes.extend(MORE_ENTRIES.map(size));
            }
        }
    }
    sizes
}
