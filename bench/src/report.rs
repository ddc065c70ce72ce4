//! The tables, as they stand in docs/PERFORMANCE.md.

use crate::aims;
use crate::foreign;
use crate::measure::Spread;
use crate::results::Results;
use std::process::Command;

pub fn report(results: &Results) -> String {
    [
        machine(results.rounds),
        "### Aims".to_string(),
        aims::table(results),
        "### The clerk's work".to_string(),
        clerks(results),
        "### Single costs".to_string(),
        singles(results),
        "### The checks of every call".to_string(),
        checks(results),
        "### Passes over a file".to_string(),
        scans(results),
    ]
    .join("\n\n")
        + "\n"
}

/// The kind of the machine, and nothing else of it.
fn machine(rounds: usize) -> String {
    let cpuinfo = std::fs::read_to_string("/proc/cpuinfo").unwrap_or_default();
    let model = cpuinfo
        .lines()
        .find_map(|line| line.strip_prefix("model name"))
        .map_or("unknown processor", |rest| {
            rest.trim_start_matches([' ', '\t', ':'])
        });
    let cores = std::thread::available_parallelism().map_or(0, usize::from);
    let rustc = Command::new("rustc").arg("--version").output();
    let rustc = rustc.map_or("rustc".to_string(), |output| {
        String::from_utf8_lossy(&output.stdout).trim().to_string()
    });
    let sqlite = foreign::sqlite_version();
    format!("{model}, {cores} cores; {rustc}; SQLite {sqlite}; {rounds} rounds.")
}

/// A table of Markdown whose columns, but the first, are of numbers.
fn table_of_numbers(head: &[&str], rows: &[Vec<String>]) -> String {
    table(head, "---:", rows)
}

/// A table of Markdown; `rule` says how the columns but the first are set.
pub fn table(head: &[&str], rule: &str, rows: &[Vec<String>]) -> String {
    let line = |cells: Vec<&str>| format!("| {} |", cells.join(" | "));
    let rules = format!("|---|{}|", vec![rule; head.len() - 1].join("|"));
    let rows = rows
        .iter()
        .map(|row| line(row.iter().map(String::as_str).collect()));
    let lines: Vec<String> = [line(head.to_vec()), rules]
        .into_iter()
        .chain(rows)
        .collect();
    lines.join("\n")
}

fn ratio(spread: Spread) -> String {
    let Spread {
        lower,
        median,
        upper,
    } = spread;
    format!("{median:.2} ({lower:.2} to {upper:.2})")
}

fn nanoseconds(spread: Spread) -> String {
    grouped(spread.median)
}

/// A whole number with commas, or a small one with a digit behind the point.
pub fn grouped(number: f64) -> String {
    if number < 100.0 {
        return format!("{number:.1}");
    }
    let digits = format!("{number:.0}");
    let mut grouped = String::new();
    for (place, digit) in digits.chars().enumerate() {
        if place > 0 && (digits.len() - place) % 3 == 0 {
            grouped.push(',');
        }
        grouped.push(digit);
    }
    grouped
}

fn clerks(results: &Results) -> String {
    let rows: Vec<Vec<String>> = results
        .clerks
        .iter()
        .map(|clerk| {
            let [library, in_c, second, sqlite] = &clerk.times[..] else {
                panic!("four are measured");
            };
            vec![
                clerk.name(),
                nanoseconds(library.spread()),
                grouped(1e9 / library.median()),
                ratio(in_c.over(library)),
                ratio(second.over(library)),
                ratio(sqlite.over(library)),
            ]
        })
        .collect();
    let head = [
        "",
        "ns a call",
        "calls a second",
        "from C: time / ours",
        "second: time / ours",
        "SQLite: time / ours",
    ];
    table_of_numbers(&head, &rows)
}

fn singles(results: &Results) -> String {
    let rows: Vec<Vec<String>> = results
        .singles
        .iter()
        .map(|single| {
            let [library, second] = &single.times[..] else {
                panic!("two are measured");
            };
            vec![
                single.name.to_string(),
                nanoseconds(library.spread()),
                nanoseconds(second.spread()),
                ratio(second.over(library)),
            ]
        })
        .collect();
    table_of_numbers(&["", "ns", "second: ns", "second: time / ours"], &rows)
}

fn checks(results: &Results) -> String {
    let rows: Vec<Vec<String>> = results
        .checks
        .iter()
        .map(|checks| {
            let [library, second, rust] = &checks.times[..] else {
                panic!("three are measured");
            };
            vec![
                checks.size.name(),
                nanoseconds(library.spread()),
                nanoseconds(second.spread()),
                nanoseconds(rust.spread()),
                ratio(second.over(library)),
                ratio(library.over(rust)),
            ]
        })
        .collect();
    let head = [
        "",
        "ns",
        "second: ns",
        "Rust by reference: ns",
        "second: time / ours",
        "our time / Rust's",
    ];
    table_of_numbers(&head, &rows)
}

fn scans(results: &Results) -> String {
    let rows: Vec<Vec<String>> = results
        .scans
        .iter()
        .map(|scan| {
            let [library, second, rust] = &scan.times[..] else {
                panic!("three are measured");
            };
            let two = |spread: Spread| format!("{:.2}", spread.median);
            vec![
                scan.name.to_string(),
                two(library.spread()),
                two(second.spread()),
                two(rust.spread()),
                ratio(second.over(library)),
                ratio(library.over(rust)),
            ]
        })
        .collect();
    let head = [
        "",
        "ns an ISN",
        "second: ns",
        "Rust: ns",
        "second: time / ours",
        "our time / Rust's",
    ];
    table_of_numbers(&head, &rows)
}
