//! The program `rows`: a law for each list, state and set-up, and every response number.

use second::cases;
use second::compare::REACHED;
use std::process::Command;

fn output(arguments: &[&str]) -> (bool, String) {
    let output = Command::new(env!("CARGO_BIN_EXE_rows"))
        .args(arguments)
        .output()
        .expect("run");
    let text = String::from_utf8(output.stdout).expect("text");
    (output.status.success(), text)
}

fn lines_with(text: &str, part: &str) -> usize {
    text.lines().filter(|line| line.contains(part)).count()
}

#[test]
fn laws_of_each_seed() {
    let (good, text) = output(&["7", "4"]);
    assert!(good);
    assert_eq!(lines_with(&text, " = refl"), 4 * 18);
    for name in [
        "list-7",
        "state-8-1",
        "set-up-10-3",
        "aimed-9-2",
        "lined-9-4",
    ] {
        assert_eq!(lines_with(&text, &format!("{name} = refl")), 1, "{name}");
    }
}

#[test]
fn lists_can_be_cut() {
    let (good, text) = output(&["7", "1", "5"]);
    assert!(good);
    assert_eq!(lines_with(&text, "    given (bytes"), 5);
    assert!(text.ends_with("-- calls: 22\n"), "{text}");
}

#[test]
fn every_response_comes() {
    let (good, text) = output(&["1", "50"]);
    assert!(good);
    for label in REACHED.iter().chain(&["10", "11", "12"]) {
        assert_eq!(
            lines_with(&text, &format!("-- response {label}: ")),
            1,
            "{label}"
        );
    }
}

/// How often `-- case NAME: N` says that a case came.
fn times(text: &str, case: &str) -> u64 {
    text.lines()
        .filter_map(|line| line.strip_prefix("-- case ")?.split_once(": "))
        .find(|(name, _)| *name == case)
        .map_or(0, |(_, times)| times.parse().expect(case))
}

/// The calls that `compare-definitions 1 50` compares have each case a few times, so that a definition that is wrong
/// there is seen.
#[test]
fn every_case_comes() {
    let (good, text) = output(&["1", "50"]);
    assert!(good);
    let rare: Vec<String> = cases::all()
        .into_iter()
        .filter(|case| times(&text, case) < 2)
        .collect();
    assert!(rare.is_empty(), "too rare: {rare:?}");
}

#[test]
fn bad_arguments_fail() {
    for arguments in [&[][..], &["1"], &["1", "x"], &["1", "1", "x"]] {
        assert!(!output(arguments).0, "{arguments:?}");
    }
}
