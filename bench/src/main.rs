//! Program `bench`: what calls cost, by the proved library, the second implementation and SQLite in memory.

#![deny(unsafe_code)]

mod aims;
mod by_reference;
mod checks;
mod clerk;
#[allow(unsafe_code)]
mod foreign;
mod growth;
mod measure;
mod pair;
mod plot;
mod report;
mod results;
mod scans;
mod single;
mod sqlite;
mod steps;
mod tables;
mod work;

use plot::Plot;
use results::Results;
use std::fs;
use std::process::ExitCode;

const USAGE: &str = "\
usage: bench/run [--quick | --rounds COUNT] [--write]

Measures what calls cost, prints tables, and says which aims are met.
  --quick   few rounds: some 20 seconds instead of minutes
  --rounds  how often each thing is measured (201)
  --write   puts the tables into docs/PERFORMANCE.md, and the plots beside it
Exit status: 0 measured; 1 a file cannot be written; 2 bad arguments.
A difference between the implementations is a panic that says what differs.";

const ROUNDS: usize = 201;
const QUICK_ROUNDS: usize = 15;

const DOCUMENT: &str = "docs/PERFORMANCE.md";
const BEGIN: &str = "<!-- bench/run --write: from here -->\n";
const END: &str = "<!-- to here -->\n";

fn main() -> ExitCode {
    let words: Vec<String> = std::env::args().skip(1).collect();
    let Some((rounds, write)) = arguments(&words) else {
        eprintln!("{USAGE}");
        return ExitCode::from(2);
    };
    let results = Results::measure(rounds);
    let report = report::report(&results);
    println!("{report}");
    match write_all(&results, &report, write) {
        Ok(()) => ExitCode::SUCCESS,
        Err(error) => {
            eprintln!("bench: {error}");
            ExitCode::FAILURE
        }
    }
}

/// How many rounds, and whether to write; none for words that are not understood.
fn arguments(words: &[String]) -> Option<(usize, bool)> {
    let (mut rounds, mut write) = (ROUNDS, false);
    let mut words = words.iter();
    while let Some(word) = words.next() {
        match word.as_str() {
            "--quick" => rounds = QUICK_ROUNDS,
            "--rounds" => rounds = words.next()?.parse().ok().filter(|rounds| *rounds > 0)?,
            "--write" => write = true,
            _ => return None,
        }
    }
    Some((rounds, write))
}

fn write_all(results: &Results, report: &str, write: bool) -> Result<(), String> {
    if !write {
        return Ok(());
    }
    let by_entries = Plot {
        title: "The checks of every call: 4 files of 5 fields",
        across: "entries of the hold queue",
        growth: &results.by_entries,
    };
    let by_records = Plot {
        title: "The clerk's work on one file",
        across: "records",
        growth: &results.by_records,
    };
    write_file("docs/performance-entries.svg", &by_entries.svg())?;
    write_file("docs/performance-records.svg", &by_records.svg())?;
    let document = fs::read_to_string(DOCUMENT).map_err(|error| format!("{DOCUMENT}: {error}"))?;
    write_file(DOCUMENT, &with_report(&document, report)?)
}

/// The document with the report between the marks, instead of what is there.
fn with_report(document: &str, report: &str) -> Result<String, String> {
    let parts = document
        .split_once(BEGIN)
        .and_then(|(before, rest)| Some((before, rest.split_once(END)?.1)));
    match parts {
        Some((before, after)) => Ok(format!("{before}{BEGIN}\n{report}\n{END}{after}")),
        None => Err(format!("{DOCUMENT} has lost its marks: {BEGIN}and {END}")),
    }
}

fn write_file(path: &str, text: &str) -> Result<(), String> {
    fs::write(path, text).map_err(|error| format!("{path}: {error}"))
}
