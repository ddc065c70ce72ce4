//! The saved corpus of each target with the saved lists and vectors, and a bounded number of changes of each input.

use second::random::Random;
use std::ffi::OsStr;
use std::fs;
use std::path::Path;

type Target = fn(&[u8]) -> Result<(), String>;

/// How many changed inputs are tried for each saved one.
const CHANGED: usize = 20;

/// The files of a directory, by name, that have this extension or none.
fn files(directory: &str, extension: Option<&str>) -> Vec<(String, Vec<u8>)> {
    let directory = Path::new(env!("CARGO_MANIFEST_DIR")).join(directory);
    let entries = fs::read_dir(&directory).expect("a directory");
    let mut files: Vec<(String, Vec<u8>)> = entries
        .map(|entry| entry.expect("entry").path())
        .filter(|path| path.extension().and_then(OsStr::to_str) == extension)
        .map(|path| {
            let name = path.display().to_string();
            let input = fs::read(&path).expect(&name);
            (name, input)
        })
        .collect();
    files.sort();
    files
}

/// One of a few changes that a fuzzer makes, with bytes of another input.
fn change(random: &mut Random, input: &mut Vec<u8>, other: &[u8]) {
    let place = random.below(input.len() as u64 + 1) as usize;
    let length = random.below(65) as usize;
    match random.below(5) {
        0 => input.truncate(place),
        1 => drop(input.drain(place..(place + length).min(input.len()))),
        2 => {
            let from = random.below(other.len() as u64 + 1) as usize;
            let part = other[from..].iter().take(length).copied();
            input.splice(place..place, part).for_each(drop);
        }
        3 => input.insert(place, random.number() as u8),
        _ => {
            if let Some(byte) = input.get_mut(place) {
                *byte = random.pick(&[0, 1, 2, 32, b'0', b'.', 255, byte.wrapping_add(1)]);
            }
        }
    }
}

/// Runs each input and its changed ones; the error names the input and has the bytes that were found.
fn run(inputs: &[(String, Vec<u8>)], target: Target) -> Result<(), String> {
    let random = &mut Random::new(1);
    for (place, (path, input)) in inputs.iter().enumerate() {
        target(input).map_err(|error| format!("{path}: {error}"))?;
        let mut changed = input.clone();
        for number in 0..CHANGED {
            if number % 4 == 0 {
                changed.clone_from(input);
            }
            let other = &inputs[(place + number) % inputs.len()].1;
            change(random, &mut changed, other);
            target(&changed).map_err(|error| {
                let bytes = call_lists::hex(&changed);
                format!("{path}, changed to {bytes}: {error}")
            })?;
        }
    }
    Ok(())
}

#[test]
fn house_lists_of_the_corpus() {
    let mut inputs = files("corpus/house", None);
    assert!(inputs.len() >= 50, "{} inputs", inputs.len());
    inputs.extend(files("../../second/lists", None));
    run(&inputs, fuzz::house).expect("no difference");
}

#[test]
fn texts_of_the_corpus() {
    let mut inputs = files("corpus/text", None);
    assert!(inputs.len() >= 50, "{} inputs", inputs.len());
    inputs.extend(files("../../second/lists", Some("txt")));
    inputs.extend(files("../../second/vectors", Some("txt")));
    run(&inputs, fuzz::text).expect("no difference");
}
