//! The aims, each with what was found.

use crate::checks::Checks;
use crate::clerk::Clerk;
use crate::growth::Growth;
use crate::measure::Times;
use crate::report;
use crate::results::Results;
use crate::scans::Scan;
use std::cmp::Ordering;

/// How far a point may be from a straight line, as a share of the line there.
const LINE: f64 = 0.15;

struct Aim {
    what: &'static str,
    wanted: String,
    found: String,
    met: bool,
}

pub fn table(results: &Results) -> String {
    let aims = [
        against_second(results),
        single_against_second(results),
        against_sqlite(results),
        checks_by_reference(results),
        unique_check(results),
        free_isn(results),
        entries_256(results),
        line(
            "growth with entries: farthest point from a straight line",
            &results.by_entries,
        ),
        line(
            "growth with records: farthest point from a straight line",
            &results.by_records,
        ),
    ];
    let row = |aim: Aim| {
        let met = if aim.met { "met" } else { "missed" };
        vec![aim.what.to_string(), aim.wanted, aim.found, met.to_string()]
    };
    let rows = aims.map(row);
    report::table(&["aim", "wanted", "found", ""], "---", &rows)
}

/// A ratio and the row that it is of.
type Named = (String, f64);

/// Each of these ratios is at least so much. The least is found, and how many are less than wanted.
fn at_least(what: &'static str, least: f64, ratios: Vec<Named>) -> Aim {
    let missed = ratios.iter().filter(|(_, ratio)| *ratio < least).count();
    Aim {
        what,
        wanted: format!("at least {least:.1}"),
        found: worst(&ratios, missed, |(_, a), (_, b)| a.total_cmp(b)),
        met: missed == 0,
    }
}

/// Each of these ratios is at most so much. The greatest is found, and how many are more than wanted.
fn at_most(what: &'static str, most: f64, ratios: Vec<Named>) -> Aim {
    let missed = ratios.iter().filter(|(_, ratio)| *ratio > most).count();
    Aim {
        what,
        wanted: format!("at most {most:.1}"),
        found: worst(&ratios, missed, |(_, a), (_, b)| b.total_cmp(a)),
        met: missed == 0,
    }
}

/// The first in an order, and how many of all miss.
fn worst(ratios: &[Named], missed: usize, order: fn(&Named, &Named) -> Ordering) -> String {
    let worst = ratios.iter().min_by(|a, b| order(a, b));
    let worst = worst.map_or(String::new(), |(row, ratio)| format!("{ratio:.2}: {row}"));
    match (missed, ratios.len()) {
        (0, _) | (_, 1) => worst,
        (missed, all) => format!("{worst}; {missed} of {all} miss it"),
    }
}

/// How many times as long another runner takes as the library, which is the first.
fn other(times: &[Times], runner: usize) -> f64 {
    times[runner].over(&times[0]).median
}

/// How many times as long the library takes as Rust, which is the third.
fn against_rust(times: &[Times]) -> f64 {
    times[0].over(&times[2]).median
}

/// The clerk's work against another runner.
fn clerks(results: &Results, runner: usize) -> Vec<Named> {
    let named = |clerk: &Clerk| (clerk.name(), other(&clerk.times, runner));
    results.clerks.iter().map(named).collect()
}

fn against_second(results: &Results) -> Aim {
    let what = "calls a second against second, the clerk's work";
    at_least(what, 1.0, clerks(results, 2))
}

fn single_against_second(results: &Results) -> Aim {
    let singles = results.singles.iter();
    let singles = singles.map(|single| (single.name.to_string(), &single.times));
    let checks = results.checks.iter();
    let checks = checks.map(|checks| (checks.size.name(), &checks.times));
    let ratios = singles.chain(checks);
    let ratios = ratios.map(|(name, times)| (name, other(times, 1)));
    at_least("the same, each single cost", 0.7, ratios.collect())
}

fn against_sqlite(results: &Results) -> Aim {
    let what = "calls a second against SQLite, the clerk's work";
    at_least(what, 5.0, clerks(results, 3))
}

fn checks_by_reference(results: &Results) -> Aim {
    let wanted = |checks: &&Checks| {
        let size = checks.size;
        (size.files, size.fields, size.entries) == (4, 5, 10)
    };
    let rows = results.checks.iter().filter(wanted);
    let ratios = rows.map(|checks| (checks.size.name(), against_rust(&checks.times)));
    let what = "time of the checks of every call against Rust by reference";
    at_most(what, 1.2, ratios.collect())
}

/// The passes over a file whose names begin so, against Rust.
fn passes(results: &Results, begin: &str) -> Vec<Named> {
    let wanted = |scan: &&Scan| scan.name.starts_with(begin);
    let rows = results.scans.iter().filter(wanted);
    rows.map(|scan| (scan.name.to_string(), against_rust(&scan.times)))
        .collect()
}

fn unique_check(results: &Results) -> Aim {
    let what = "time of a unique check of 4,000 records against Rust's comparison of slices";
    at_most(what, 1.2, passes(results, "unique"))
}

fn free_isn(results: &Results) -> Aim {
    let what =
        "time of N1's search through 4,094 ISNs against Rust's reading of each slot's first byte";
    at_most(what, 2.0, passes(results, "N1"))
}

fn entries_256(results: &Results) -> Aim {
    let ratio = results.by_entries.step(10, 256);
    Aim {
        what: "time of the checks with 256 entries against 10",
        wanted: "under 8.0".to_string(),
        found: format!("{ratio:.2}"),
        met: ratio < 8.0,
    }
}

fn line(what: &'static str, growth: &Growth) -> Aim {
    let deviation = growth.deviation(0);
    Aim {
        what,
        wanted: format!("at most {:.0} %", LINE * 100.0),
        found: format!("{:.1} %", deviation * 100.0),
        met: deviation <= LINE,
    }
}
