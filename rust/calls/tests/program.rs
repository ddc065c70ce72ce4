//! The program `calls` on files and texts, with both implementations.

use std::io::Write;
use std::process::{Command, Output, Stdio};

const VECTORS: &str = concat!(
    env!("CARGO_MANIFEST_DIR"),
    "/../../second/vectors/command-reference.txt"
);
const READY: &str = concat!(
    env!("CARGO_MANIFEST_DIR"),
    "/../../second/vectors/ready.txt"
);
const COMMITTED: &str = concat!(
    env!("CARGO_MANIFEST_DIR"),
    "/../../second/vectors/committed.txt"
);
const WAITING: &str = concat!(
    env!("CARGO_MANIFEST_DIR"),
    "/../../second/vectors/waiting.txt"
);
const LISTS: &str = concat!(env!("CARGO_MANIFEST_DIR"), "/../../second/lists");

/// Runs the program on a text.
fn calls(arguments: &[&str], input: impl AsRef<[u8]>) -> Output {
    let mut program = Command::new(env!("CARGO_BIN_EXE_calls"))
        .args(arguments)
        .stdin(Stdio::piped())
        .stdout(Stdio::piped())
        .stderr(Stdio::piped())
        .spawn()
        .expect("start");
    let mut pipe = program.stdin.take().expect("input");
    // The program may end before it has read all.
    let _ = pipe.write_all(input.as_ref());
    drop(pipe);
    program.wait_with_output().expect("output")
}

fn text(bytes: &[u8]) -> String {
    String::from_utf8(bytes.to_vec()).expect("text")
}

/// The output of a run that ends with status 0.
fn good(arguments: &[&str], input: impl AsRef<[u8]>) -> String {
    let output = calls(arguments, input);
    assert_eq!(output.status.code(), Some(0), "{}", text(&output.stderr));
    assert_eq!(text(&output.stderr), "");
    text(&output.stdout)
}

/// What is said by a run that ends with this status.
fn refused(status: i32, arguments: &[&str], input: impl AsRef<[u8]>) -> String {
    let output = calls(arguments, input);
    assert_eq!(output.status.code(), Some(status), "{arguments:?}");
    text(&output.stderr)
}

const EXAMPLE: &str = "example: the worked example
table: 01010003 0252430141550248480241 20 00
call: N1 format=RC,HH. text=2AB -> 0 1 0 0
call: ET -> 0 0 1 1
call: A1 option=H isn=1 format=RC. text=3
call: N1 user=2 format=RC,HH. text=2CD -> 198 0 0 0
call: L4 isn=1 format=RC. length=1 -> 145 0 0 0
call: BT user=1 -> 0 0 1 0
call: L1 user=2 isn=1 format=RC,HH. length=5 -> 0 1 3 0 324142
";

const PRINTED: &str = "example: the worked example
table: 010100030252430141550248480241 2000
capacity: 64
call: N1 format=RC,HH. text=2AB -> 0 1 0 0 after=324142
call: ET -> 0 0 1 1
call: A1 option=H isn=1 format=RC. text=3 -> 0 1 0 0 after=33
call: N1 user=2 format=RC,HH. text=2CD -> 198 0 0 0 after=324344
# 198: A unique value is taken: another record has it, or gets it back if another user backs out.
call: L4 isn=1 format=RC. length=1 -> 145 0 0 0 after=00
# 145: Another user holds the ISN.
call: BT user=1 -> 0 0 1 0
call: L1 user=2 isn=1 format=RC,HH. length=5 -> 0 1 3 0 324142 after=3241420000
";

#[test]
fn prints_each_call_with_its_answer_and_why() {
    let printed = PRINTED.replace(" 2000", "2000");
    for second in [&[][..], &["--second"]] {
        assert_eq!(good(&[&["--explain"], second].concat(), EXAMPLE), printed);
        let without: String = printed
            .split_inclusive('\n')
            .filter(|line| !line.starts_with('#'))
            .collect();
        assert_eq!(good(second, EXAMPLE), without);
    }
}

/// The Command Reference's vectors, those of PE and of the options `C` and `W`, and the sources of the house call lists that
/// have no bad input.
#[test]
fn the_saved_lists_are_as_expected() {
    let sources = [
        "worked-example",
        "every-response",
        "two-kitchens",
        "going-round",
        "no-fields",
        "packed-signs",
        "committed-reading",
        "waiting",
        "command-reference-1",
    ];
    let vectors = [VECTORS, READY, COMMITTED, WAITING];
    let mut files = vectors.map(String::from).to_vec();
    files.extend(sources.map(|name| format!("{LISTS}/{name}.txt")));
    let files: Vec<&str> = files.iter().map(String::as_str).collect();
    for implementation in [&["--check"][..], &["--check", "--second"]] {
        let said = good(&[implementation, &files].concat(), "");
        assert!(
            said.ends_with("answers compared: all as expected\n"),
            "{said}"
        );
        assert_eq!(said, good(&[&["--check"], &files[..]].concat(), ""));
    }
    assert!(good(&["--check", VECTORS], "").starts_with("48 lists, "));
}

/// What is printed is a list that is as expected, by the other implementation too.
#[test]
fn what_is_printed_can_be_checked() {
    let vectors = good(&["--explain", VECTORS], "");
    assert_eq!(good(&["--second", "--explain", VECTORS], ""), vectors);
    let random = random_lists();
    let printed = good(&[], &random);
    assert_eq!(printed, random, "lines of `lists` come back as they are");
    for printed in [vectors, printed] {
        let said = good(&["--check"], &printed);
        assert_eq!(said, good(&["--check", "--second"], &printed));
        let calls = printed
            .lines()
            .filter(|line| line.starts_with("call"))
            .count();
        assert!(
            said.contains(&format!(" {calls} calls, {calls} answers compared")),
            "{said}"
        );
    }
}

/// Random lists with the second implementation's answers, as `lists` prints them.
fn random_lists() -> String {
    let text = |seed| second::list_lines::list_text(&second::random::list(seed));
    (1..=20).map(|seed| text(seed).expect("runs")).collect()
}

#[test]
fn the_first_difference_is_named() {
    let changed = EXAMPLE
        .replace("145 0 0 0", "0 1 1 0 33")
        .replace("0 0 1 0\n", "0 0 2 0\n");
    for second in [&["--check"][..], &["--check", "--second"]] {
        assert_eq!(
            refused(1, second, &changed),
            "calls: standard input, line 7: expected 0 1 1 0 33, found 145 0 0 0 (call: L4 isn=1 format=RC. length=1)\n"
        );
    }
    let said = refused(1, &["--check", "--explain"], &changed);
    assert!(
        said.ends_with("; 145: Another user holds the ISN.\n"),
        "{said}"
    );
    let bytes = EXAMPLE.replace("0 1 3 0 324142", "0 1 3 0 324143");
    assert!(refused(1, &["--check"], bytes)
        .contains("line 9: expected 0 1 3 0 324143, found 0 1 3 0 324142"));
}

#[test]
fn a_refused_set_up_is_named() {
    for second in [&[][..], &["--second"]] {
        let table = EXAMPLE.replace("2000", "21 00").replace(" 20 00", " 21 00");
        let said = refused(1, second, table);
        let expected = "calls: standard input, line 1: set-up answers 10: The definition table breaks a rule.\n";
        assert_eq!(said, expected);
        for capacity in ["0", "257", "4294967295"] {
            let text = EXAMPLE.replace(
                "call: N1 format",
                &format!("capacity: {capacity}\ncall: N1 format"),
            );
            let said = refused(1, second, text);
            assert!(
                said.contains("set-up answers 11: A lent buffer is too short"),
                "{said}"
            );
        }
        let short = "list seed=1 table=0101000302414101415500 capacity=2 store=5 queue=2 images=2 fill=A5\n";
        assert!(refused(1, second, short).contains("line 1: set-up answers 11"));
    }
}

#[test]
fn a_bad_line_is_named() {
    let said = refused(2, &["--check"], EXAMPLE.replace("isn=1", "isn=one"));
    let expected =
        "calls: standard input, line 5: expected isn= with a number from 0 to 65535, found one\n";
    assert_eq!(said, expected);
    let said = refused(2, &[&format!("{LISTS}/bad.txt")], "");
    assert!(
        said.contains("bad.txt, line ") && said.contains("expected one of the keys"),
        "{said}"
    );
}

#[test]
fn bad_arguments_are_named() {
    let said = refused(2, &["--chek"], "");
    assert_eq!(
        said,
        "calls: expected --check, --explain, --second, --help or a file, found --chek\n"
    );
    let said = refused(2, &["no such file"], "");
    assert!(said.starts_with("calls: no such file: "), "{said}");
    assert!(refused(2, &["--", "--check"], "").starts_with("calls: --check: "));
    let help = good(&["--second", "--help"], "");
    assert!(help.starts_with("usage: calls [--check] [--explain] [--second] [FILE..]\n"));
    assert_eq!(good(&[], ""), "");
    assert_eq!(
        good(&["-", "--check"], EXAMPLE),
        "1 list, 7 calls, 6 answers compared: all as expected\n"
    );
}

/// Each refusal that has a sentence of its own, and one of each that has the response's.
#[test]
fn says_why() {
    let head = "example: a\ntable: 01010003 025243014155 0248480141 20 00\n";
    let cases = [
        ("XX", "22: The command is unknown."),
        ("HI option=I", "22: The option is none of HI's."),
        ("L4 option=C", "22: The option is none of L4's."),
        ("HI isn=4", "113: The ISN is not 1 to 3, the file's highest."),
        ("L1 isn=1 format=RC.", "53: The record buffer is shorter than the named fields."),
        ("ET length=65", "53: ET brings more than 64 bytes."),
        ("ET text=a\ncall: RE", "53: The record buffer is shorter than the user's ET data."),
        ("L1 isn=1 format=RC. length=1", "113: There is no record at the ISN."),
        ("N1 format=RC. text=1\ncall: L1 option=C isn=1 format=RC. length=1", "113: Ended transactions left no record at the ISN."),
        ("L1 option=C isn=4 format=RC. length=1", "113: The ISN is not 1 to 3, the file's highest."),
        ("N1 format=RC. text=1\ncall: N2 isn=1 format=RC. text=2", "113: There is a record at the ISN already."),
        ("HI isn=1\ncall: HI isn=1 clock=901", "9: The user's transaction took longer than his time limit and was backed out."),
        ("HI isn=1\ncall: CL", "9: The user's transaction was backed out: it took longer than his time limit, or he called OP or CL before ending it."),
        ("RI isn=1", "144: The user does not hold the ISN."),
        ("HI isn=1\ncall: HI user=2 option=W isn=1", "20: User 1 holds the ISN, and this user is the first in line."),
        ("OP user=2 isn=1\ncall: HI isn=2\ncall: HI user=1 isn=1\ncall: HI user=2 option=W isn=1", "145: Another user holds the ISN, and this one may hold no more: he does not wait."),
    ];
    for (calls, why) in cases {
        for second in [&["--explain"][..], &["--explain", "--second"]] {
            let printed = good(second, format!("{head}call: {calls}\n"));
            assert!(printed.ends_with(&format!("\n# {why}\n")), "{printed}");
            assert_eq!(
                printed.lines().filter(|line| line.starts_with('#')).count(),
                1
            );
        }
    }
}

const OFFICES: &str = "example: a line of three, and one for another record
table: 01010002 025243014155 00
call: N2 isn=1 format=RC. text=x
call: HI isn=2
call: L4 user=2 option=W isn=1 format=RC. length=1
call: HI user=5 option=W isn=2
call: L4 user=3 option=W isn=1 format=RC. length=1
call: HI user=4 option=W isn=1
call: RI user=1 isn=2
call: ET
call: HI user=4 option=W isn=1 clock=901
call: HI user=3 isn=1
call: BT
";

const OFFICES_SAID: [&str; 9] = [
    "20: User 1 holds the ISN, and this user is the first in line.",
    "20: User 1 holds the ISN, and this user is the first in line.",
    "20: User 1 holds the ISN, and 1 user waits before this one.",
    "20: User 1 holds the ISN, and 2 users wait before this one.",
    "ISN 2 of file 1 is handed over to user 5, who waited for it.",
    "ISN 1 of file 1 is handed over to user 2, who waited for it.",
    // At 901 users 2 and 5, who never came, are backed out.
    "20: User 3 holds the ISN, and this user is the first in line.",
    "ISN 1 of file 1 is handed over to user 3, who waited for it.",
    // User 3's HI without `W` finds his own hold.
    "ISN 1 of file 1 is handed over to user 4, who waited for it.",
];

/// Who holds, how many wait before, and to whom a hold goes: by RI, ET, BT and the clock.
#[test]
fn says_whom_one_waits_for_and_what_is_handed_over() {
    let expected = OFFICES_SAID.map(|said| format!("# {said}"));
    for second in [&["--explain"][..], &["--explain", "--second"]] {
        let printed = good(second, OFFICES);
        let said: Vec<&str> = printed
            .lines()
            .filter(|line| line.starts_with('#'))
            .collect();
        assert_eq!(said, expected);
        assert!(!good(&second[1..], OFFICES).contains('#'));
    }
}

/// Whoever takes a free hold by another call of his got nothing handed over.
#[test]
fn a_hold_that_is_taken_is_not_handed_over() {
    let text = "example: a
table: 01010002 025243014155 00
call: HI isn=1
call: HI user=2 option=W isn=1
call: HI isn=1 clock=901
";
    let printed = good(&["--explain"], text);
    assert!(printed.ends_with("clock=901 -> 0 1 0 0\n"), "{printed}");
    let again = good(
        &["--explain"],
        text.replace("HI isn=1 clock", "HI option=W isn=1 clock"),
    );
    let said = "# ISN 1 of file 1 is handed over to user 2, who waited for it.\n";
    assert!(again.ends_with(said), "{again}");
}
