//! Program `beside`: compares COUNT random calls, from a seed on, and prints how often each response came.

use beside::{run, Counts};
use std::process::ExitCode;

const USAGE: &str = "\
usage: beside [COUNT [SEED]]

Makes COUNT random calls (200000) on the proved nucleus and on the second
implementation, from SEED (1) on, and compares what they answer and leave.
Exit status: 0 no difference; 1 a difference, or a response that never came
though COUNT is 200000 or more; 2 bad arguments. `beside 1 SEED` runs one seed.";

const COUNT: u64 = 200_000;

fn main() -> ExitCode {
    let words: Vec<String> = std::env::args().skip(1).collect();
    let Some((count, seed)) = numbers(&words) else {
        eprintln!("{USAGE}");
        return ExitCode::from(2);
    };
    match run(seed, count).and_then(|counts| judged(counts, count)) {
        Ok(counts) => {
            print(&counts);
            ExitCode::SUCCESS
        }
        Err(error) => {
            eprintln!("beside: {error}");
            ExitCode::FAILURE
        }
    }
}

fn numbers(words: &[String]) -> Option<(u64, u64)> {
    match words {
        [] => Some((COUNT, 1)),
        [count] => Some((count.parse().ok()?, 1)),
        [count, seed] => Some((count.parse().ok()?, seed.parse().ok()?)),
        _ => None,
    }
}

/// Many calls must have every response.
fn judged(counts: Counts, count: u64) -> Result<Counts, String> {
    let missing = counts.missing();
    match missing.is_empty() || count < COUNT {
        true => Ok(counts),
        false => Err(format!(
            "no difference, but these responses never came: {missing:?}"
        )),
    }
}

/// The number that a label begins with.
fn number(label: &str) -> u16 {
    let digits = label.split(' ').next().unwrap_or_default();
    digits.parse().unwrap_or(u16::MAX)
}

fn print(counts: &Counts) {
    let mut responses: Vec<(&String, &u64)> = counts.responses.iter().collect();
    responses.sort_by_key(|(response, _)| number(response));
    for (response, count) in responses {
        println!("{response:>12} {count:>9}");
    }
    println!(
        "{} calls and {} set-ups of {} seeds compared, {} responses: no difference",
        counts.calls,
        counts.set_ups,
        counts.seeds,
        counts.responses.len()
    );
}
