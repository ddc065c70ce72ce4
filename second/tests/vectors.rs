//! The examples of the Command Reference, of PE, of L1's option `C` and of option `W`, run.

use second::vectors::{read, run};

const VECTORS: &str = concat!(env!("CARGO_MANIFEST_DIR"), "/vectors");

/// Each example of a file says where it comes from, and is answered so.
fn check_file(name: &str, least: usize) {
    let text = std::fs::read_to_string(format!("{VECTORS}/{name}")).expect("the vector file");
    let examples = read(&text).expect("a good vector file");
    assert!(examples.len() >= least, "{} examples", examples.len());
    for example in &examples {
        assert!(!example.section.is_empty(), "{}: no section", example.name);
        assert!(!example.words.is_empty(), "{}: no words", example.name);
        assert!(!example.calls.is_empty(), "{}: no calls", example.name);
    }
    let differing: Vec<String> = examples
        .iter()
        .filter_map(|example| run(example).err())
        .collect();
    assert!(differing.is_empty(), "{}", differing.join("\n"));
}

#[test]
fn command_reference() {
    check_file("command-reference.txt", 12);
}

#[test]
fn ready() {
    check_file("ready.txt", 8);
}

#[test]
fn committed() {
    check_file("committed.txt", 11);
}

#[test]
fn waiting() {
    check_file("waiting.txt", 27);
}

const EXAMPLE: &str = "
# A comment
example: one
section: N1
words: adds a record
table: 01010003 024141 01 41 55 00
capacity: 2
call: N1 format=AA. record=31 -> 0 1 0 0
call: L1 user=2 isn=1 format=AA. length=3 -> 0 1 1 0 31
call: HI isn=1 clock=5 limit=6 file=1 option=X -> 22 0 0 0
";

#[test]
fn names_the_line_that_differs() {
    assert_eq!(run(&read(EXAMPLE).expect("good")[0]), Ok(()));
    for (good, bad) in [
        ("0 1 1 0 31", "0 1 1 0 32"),
        ("0 1 1 0 31", "0 1 1 0"),
        ("0 1 1 0 31", "0 1 2 0 31"),
        ("0 1 1 0 31", "3 0 0 0"),
    ] {
        let text = EXAMPLE.replace(good, bad);
        let error = run(&read(&text).expect("good")[0]).expect_err(bad);
        let expected = format!("one, line 9: expected {bad}, found {good}");
        assert_eq!(error, expected);
    }
}

#[test]
fn refuses_a_vector_without_an_answer_and_a_bad_table() {
    for text in [
        EXAMPLE.replace("0 1 1 0 31", ""),
        EXAMPLE.replace("-> 0 1 1 0 31", ""),
    ] {
        let error = read(&text).expect_err("no answer");
        assert_eq!(error, "line 9: expected an answer after ->, found nothing");
    }
    let bad_table = "example: a\ntable: 00\ncall: HI -> 0 0 0 0";
    let error = run(&read(bad_table).expect("good")[0]).expect_err("10");
    assert!(error.contains("set-up answers 10"), "{error}");
}
