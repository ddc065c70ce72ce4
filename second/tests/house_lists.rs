//! The house call lists in `lists/`: the files are as their sources say, `partycall` prints their outputs, and the lists
//! have what they are for.

use call_lists::List;
use second::compare::REACHED;
use second::definition;
use second::house_lists::{check, read, HouseList};
use second::reference_lists;
use second::state::COMMANDS;
use second::vectors;
use std::collections::BTreeSet;
use std::fs;
use std::io::Write;
use std::path::PathBuf;
use std::process::{Command, Stdio};

fn path(name: &str) -> PathBuf {
    [env!("CARGO_MANIFEST_DIR"), name].iter().collect()
}

fn text(name: &str) -> String {
    fs::read_to_string(path(name)).expect(name)
}

/// The names of the files in `lists/`.
fn files() -> BTreeSet<String> {
    let entries = fs::read_dir(path("lists")).expect("lists");
    entries
        .map(|entry| {
            entry
                .expect("entry")
                .file_name()
                .into_string()
                .expect("name")
        })
        .collect()
}

/// Every list of every source.
fn lists() -> Vec<HouseList> {
    files()
        .iter()
        .filter(|name| name.ends_with(".txt"))
        .flat_map(|name| read(&text(&format!("lists/{name}"))).expect(name))
        .collect()
}

fn list(name: &str) -> HouseList {
    let found = lists().into_iter().find(|list| list.name == name);
    found.expect(name)
}

fn examples() -> Vec<List> {
    vectors::read(&text("vectors/command-reference.txt")).expect("vectors")
}

#[test]
fn files_are_as_the_sources_say() {
    let mut expected = BTreeSet::new();
    for list in lists() {
        let input = fs::read(path(&format!("lists/{}", list.name))).expect(&list.name);
        assert!(input == list.input, "{}", list.name);
        assert_eq!(text(&format!("lists/{}.out", list.name)), list.output);
        assert!(expected.insert(list.name.clone()), "{} twice", list.name);
        expected.insert(list.name + ".out");
    }
    let without_sources = |name: &String| !name.ends_with(".txt");
    let files: BTreeSet<String> = files().into_iter().filter(without_sources).collect();
    assert_eq!(files, expected);
}

#[test]
fn the_program_prints_the_outputs() {
    for list in lists() {
        let mut program = Command::new(env!("CARGO_BIN_EXE_partycall"))
            .stdin(Stdio::piped())
            .stdout(Stdio::piped())
            .spawn()
            .expect("start");
        let mut input = program.stdin.take().expect("input");
        input.write_all(&list.input).expect("write");
        drop(input);
        let output = program.wait_with_output().expect("output");
        assert!(output.status.success());
        let printed = String::from_utf8(output.stdout).expect("text");
        assert_eq!(printed, list.output, "{}", list.name);
    }
}

/// `crates/party_lists` runs the proved `partycall` on every list, and holds it to each one's name and output.
#[test]
fn the_proved_program_is_given_every_list() {
    let names: BTreeSet<String> = lists().into_iter().map(|list| list.name).collect();
    let args = text("../crates/party_lists/args");
    let given: BTreeSet<String> = args.lines().map(String::from).collect();
    assert_eq!(given, names);
    let mut printed = String::new();
    for name in args.lines() {
        let list = list(name);
        let data = fs::read(path(&format!("../crates/party_lists/data/{name}"))).expect(name);
        assert!(data == list.input, "{name}");
        printed += &format!("{name}\n{}", list.output);
    }
    assert_eq!(text("../crates/party_lists/stdout"), printed);
}

#[test]
fn every_response_has_every_response() {
    let list = list("every-response");
    let length = definition::table_length(&list.input).expect("table");
    let (table, calls) = list.input.split_at(length);
    let definition = definition::read_table(table).expect("valid");
    let mut responses = BTreeSet::new();
    let mut what = BTreeSet::new();
    for (call, line) in calls.chunks(65).zip(list.output.lines()) {
        let line: Vec<&str> = line.split(' ').collect();
        let command = COMMANDS[usize::from(call[0]) - 1].1;
        let name = String::from_utf8(command.to_vec()).expect("letters");
        let isn = u16::from_be_bytes([call[4], call[5]]);
        let max_isn = definition
            .file_index(call[3])
            .map_or(0, |index| definition.files[index].max_isn);
        let row = match (1..=max_isn).contains(&isn) {
            true => "113 (record)",
            false => "113 (range)",
        };
        responses.insert(match line[0] {
            "113" => row,
            number => number,
        });
        what.insert(match (line[0], line.len()) {
            ("0", 5) => format!("{name} {} with bytes", char::from(call[2])),
            ("0", _) if &command == b"RI" => format!("RI of one: {}", isn > 0),
            (number, _) => format!("{name} {number}"),
        });
    }
    // Document 02's: 20 comes of option W, 211 and 212 of PE, which has no kind byte.
    let reached: BTreeSet<&str> = REACHED
        .into_iter()
        .filter(|label| !matches!(*label, "20" | "211" | "212"))
        .collect();
    assert_eq!(responses, reached);
    for wanted in [
        "HI 0",
        "RI of one: true",
        "RI of one: false",
        "L1   with bytes",
        "L1 I with bytes",
        "L4   with bytes",
        "L4 I with bytes",
        "A1 0",
        "E1 0",
        "N1 0",
        "N2 0",
        "ET 0",
        "BT 0",
        "RE 0",
        "RE   with bytes",
        "OP 0",
        "CL 0",
        "OP 9",
        "CL 9",
        "ET 9",
        "A1 198",
        "N1 198",
        "N2 198",
    ] {
        assert!(what.contains(wanted), "{wanted}: {what:?}");
    }
}

#[test]
fn bad_lists_are_bad() {
    let lists = lists();
    let bad = lists.iter().filter(|list| list.output.ends_with("bad\n"));
    assert!(bad.count() >= 12);
    for list in &lists {
        let is_bad = list.output.contains("bad");
        assert_eq!(is_bad, list.name.starts_with("bad"), "{}", list.name);
    }
}

/// After each call a pattern is in one record of the wire at most.
#[test]
fn two_kitchens_never_ring_alike() {
    for name in ["two-kitchens", "two-kitchens-bt"] {
        let list = list(name);
        let refused = list.output.lines().filter(|line| line.starts_with("198"));
        assert!(refused.count() >= 3);
        let length = definition::table_length(&list.input).expect("table");
        for end in (length..=list.input.len()).step_by(65) {
            // What each ISN of wire 1 has.
            let mut input = list.input[..end].to_vec();
            for isn in 1..=8 {
                let text = format!("L1 user=9 isn={isn} format=RC. length=2");
                let call = call_lists::read_call(1, 1, &text).expect("call").call;
                let bytes = second::house::call_bytes(&(&call).into(), &call.format, &call.record);
                input.extend(bytes.expect("fits"));
            }
            let output = second::house::run(&input);
            let rings: Vec<&str> = output
                .lines()
                .skip((end - length) / 65)
                .filter(|line| line.starts_with("0 "))
                .collect();
            let patterns: BTreeSet<&str> = rings
                .iter()
                .map(|line| line.rsplit(' ').next().expect("bytes"))
                .collect();
            assert_eq!(rings.len(), patterns.len(), "{output}");
        }
    }
}

// The lists of the Command Reference

#[test]
fn reference_sources_come_from_the_vector_file() {
    let sources = reference_lists::sources(&examples());
    let names: BTreeSet<String> = sources
        .iter()
        .map(|(name, _)| format!("{name}.txt"))
        .collect();
    let files: BTreeSet<String> = files()
        .into_iter()
        .filter(|name| name.starts_with("command-reference") && name.ends_with(".txt"))
        .collect();
    assert_eq!(names, files);
    for (name, source) in sources {
        assert!(text(&format!("lists/{name}.txt")) == source, "{name}");
    }
}

/// Each example that fits is in one list, and there its answers are the vector file's.
#[test]
fn reference_lists_have_the_examples_that_fit() {
    let examples = examples();
    let sources = reference_lists::sources(&examples);
    let mut missing = Vec::new();
    for example in &examples {
        let head = format!("# {}\n", example.name);
        let parts: Vec<&str> = sources
            .iter()
            .filter_map(|(_, source)| source.split_once(&head))
            .map(|(_, after)| after)
            .collect();
        let [part] = parts[..] else {
            missing.push(example);
            continue;
        };
        for (line, expected) in part.lines().zip(&example.calls) {
            let (_, answer) = line.split_once(" -> ").expect(line);
            let expected = expected.expected.as_ref().expect("an answer");
            assert_eq!(answer, expected.to_string(), "{}", example.name);
        }
    }
    assert!(missing
        .iter()
        .all(|example| !reference_lists::fits(example)));
    let missing: Vec<&str> = missing
        .iter()
        .map(|example| example.name.as_str())
        .collect();
    println!("left out: {missing:?}");
    assert!(missing.len() <= 5, "{missing:?}");
}

// The notation

const LIST: &str = "
# A comment
list: one
words: what it shows
table: 01010004 024141014120 00
call: HI user=7 isn=2..3 -> 0 ISN 0 0
call: N1 format=AA. text=x -> 0 1 0 0
call: L1 isn=1 format=AA. length=2 -> 0 1 1 0 78
bad: HI isn=1 record-length=36
call: HI isn=4 ->

list: two
table: 01010004 024141014120 00
bad: ET user=2 kind=15 format-length=9 bytes=20
";

#[test]
fn reads_all_of_a_list() {
    let lists = read(LIST).expect("good");
    let [one, two] = &lists[..] else {
        panic!("{lists:?}");
    };
    assert_eq!((one.name.as_str(), two.name.as_str()), ("one", "two"));
    assert_eq!(one.output, "0 2 0 0\n0 3 0 0\n0 1 0 0\n0 1 1 0 78\nbad\n");
    assert_eq!(one.input.len(), 11 + 6 * 65);
    assert_eq!(one.input[11 + 4 * 65 + 29], 36);
    assert_eq!(one.input[11 + 5 * 65..][..6], [1, 7, b' ', 1, 0, 4]);
    assert_eq!(
        two.input[11..],
        [15, 2, b' ', 1, 0, 0, 0, 0, 0, 0, 0, 0, 9, 0, 0, 0, 0, 0, 0, 0]
    );
    assert_eq!((check(one), check(two)), (Ok(()), Ok(())));
}

#[test]
fn names_the_line_that_differs() {
    for (good, bad, error) in [
        (
            "0 1 1 0 78",
            "0 1 1 0 79",
            "line 4 of the output: expected 0 1 1 0 79, printed 0 1 1 0 78",
        ),
        (
            "0 1 1 0 78",
            "0 1 1 0",
            "line 4 of the output: expected 0 1 1 0, printed 0 1 1 0 78",
        ),
        (
            "record-length=36",
            "record-length=35",
            "line 5 of the output: expected bad, printed 0 1 0 0",
        ),
    ] {
        let lists = read(&LIST.replace(good, bad)).expect("good");
        assert_eq!(check(&lists[0]), Err(format!("one, {error}")));
    }
}

#[test]
fn refuses_bad_lines() {
    for lines in [
        "call: HI -> 0 0 0 0",
        "list: a\nnonsense",
        "list: a\nother: b",
        "list: a\ntable: 0G",
        "list: a\ntable: 00\ntable: 00",
        "list: a\ncall: HI",
        "list: a\ncall: HI ->",
        "list: a\ncall: XX -> 22 0 0 0",
        "list: a\ncall: HI isn=1..x -> 0 ISN 0 0",
        "list: a\ncall: L1 format=AA,AA,AA,AA,AA,AA. -> 53 0 0 0",
        "list: a\ncall: ET length=36 -> 53 0 0 0",
        "list: a\nbad: HI kind=256",
        "list: a\nbad:\nbad:",
        "list: a\nbad:\ncall: HI isn=1 -> 0 1 0 0",
    ] {
        assert!(read(lines).is_err(), "{lines}");
    }
}
