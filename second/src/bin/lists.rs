//! Random call lists as text, one line a call, with the answers of this implementation; or how often each response
//! comes; or one list as `partycall` reads it. The README has the format of the lines.

use second::arguments;
use second::compare::{self, Counts};
use second::house;
use second::list_lines::list_text;
use second::random;
use std::io::{self, Write};
use std::process::ExitCode;

type Print = fn(u64, u64) -> Result<(), String>;

const USAGE: &str = "usage: lists SEED [COUNT] | lists --counts FIRST LAST | lists --house SEED";

fn main() -> ExitCode {
    let arguments: Vec<String> = std::env::args().skip(1).collect();
    let words: Vec<&str> = arguments.iter().map(String::as_str).collect();
    let (print, first, second): (Print, _, _) = match words[..] {
        ["--counts", first, last] => (print_counts, first, last),
        ["--house", seed] => (print_house, seed, "1"),
        [seed] => (print_lists, seed, "1"),
        [seed, count] => (print_lists, seed, count),
        _ => (print_lists, "", ""),
    };
    let done = match arguments::numbers(first, second) {
        Some((first, second)) => print(first, second),
        None => Err(USAGE.to_string()),
    };
    arguments::exit_code(done)
}

fn print_lists(seed: u64, count: u64) -> Result<(), String> {
    let mut output = io::BufWriter::new(io::stdout().lock());
    for number in 0..count {
        let text = list_text(&random::list(seed.wrapping_add(number)))?;
        output
            .write_all(text.as_bytes())
            .map_err(|error| error.to_string())?;
    }
    Ok(())
}

fn print_house(seed: u64, _: u64) -> Result<(), String> {
    let input = house::list_bytes(&random::list(seed));
    let written = io::stdout().write_all(&input);
    written.map_err(|error| error.to_string())
}

/// Checks the lists of these seeds against the journal and prints how often each response came.
fn print_counts(first: u64, last: u64) -> Result<(), String> {
    let mut counts = Counts::new();
    for seed in first..=last {
        compare::check_list(&random::list(seed), &mut counts)?;
    }
    print!("{}", compare::counts_text(&counts));
    Ok(())
}
