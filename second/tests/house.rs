//! The input and output of `partycall`: `bad` in every way, and the lines.

mod common;
use common::{field, file, table};
use second::house::run;
use second::state::COMMANDS;

const BODY: usize = 64;
const HI: u8 = 1;
const L1: u8 = 3;
const N1: u8 = 7;
const ET: u8 = 9;
const RE: u8 = 11;

fn small_table() -> Vec<u8> {
    table(&[file(1, 2), field(b"AA", 1, b'A', b' ')])
}

/// A call of user 1 on file 1 with blank option.
fn call(kind: u8, isn: u16, format: &[u8], record: &[u8]) -> Vec<u8> {
    let mut body = vec![0; 1 + BODY];
    body[0] = kind;
    body[1] = 1;
    body[2] = b' ';
    body[3] = 1;
    body[4..6].copy_from_slice(&isn.to_be_bytes());
    body[12] = format.len() as u8;
    body[13..13 + format.len()].copy_from_slice(format);
    body[29] = record.len() as u8;
    body[30..30 + record.len()].copy_from_slice(record);
    body
}

fn run_calls(calls: &[Vec<u8>]) -> String {
    run(&[small_table(), calls.concat()].concat())
}

#[test]
fn bad_table() {
    let inputs = [
        ("empty input", vec![]),
        ("no file", vec![0]),
        ("no kind 0", small_table()[..10].to_vec()),
        ("cut file item", vec![1, 1, 0]),
        ("cut field item", small_table()[..9].to_vec()),
        ("unknown item kind", vec![3, 0]),
        (
            "unknown item kind after a file",
            [file(1, 2), vec![9, 0]].concat(),
        ),
        ("file without fields", table(&[file(1, 2)])),
        (
            "field without a file",
            table(&[field(b"AA", 1, b'A', b' ')]),
        ),
        (
            "file number 0",
            table(&[file(0, 2), field(b"AA", 1, b'A', b' ')]),
        ),
        (
            "highest ISN 0",
            table(&[file(1, 0), field(b"AA", 1, b'A', b' ')]),
        ),
        (
            "bad name",
            table(&[file(1, 2), field(b"aA", 1, b'A', b' ')]),
        ),
    ];
    for (why, input) in inputs {
        assert_eq!(run(&input), "bad\n", "{why}");
    }
}

#[test]
fn store_of_32768_bytes() {
    // 2048 ISNs of 1 + 15 bytes are 32768; one ISN or one byte of width more is too large.
    let sized = |isns, width| table(&[file(1, isns), field(b"AA", width, b'A', b' ')]);
    assert_eq!(run(&sized(2048, 15)), "");
    assert_eq!(run(&sized(2049, 15)), "bad\n");
    assert_eq!(run(&sized(2048, 16)), "bad\n");
    assert_eq!(run(&sized(4095, 253)), "bad\n");
}

#[test]
fn bad_kind() {
    for kind in (0..=255u8).filter(|kind| !(1..=13).contains(kind)) {
        let output = run_calls(&[call(HI, 1, b"", b""), call(kind, 1, b"", b"")]);
        assert_eq!(output, "0 1 0 0\nbad\n", "kind {kind}");
    }
    assert_eq!(
        run_calls(&[call(HI, 1, b"", b""), vec![0]]),
        "0 1 0 0\nbad\n"
    );
}

#[test]
fn every_kind_is_its_command() {
    for (place, (_, letters)) in COMMANDS.iter().enumerate() {
        let expected = match letters {
            b"HI" => "0 1 0 0",
            b"RI" => "144 0 0 0",
            b"L1" | b"L4" | b"A1" => "113 0 0 0",
            b"E1" => "113 0 0 0",
            b"N1" | b"N2" => "0 1 0 0",
            b"ET" => "0 0 0 1",
            _ => "0 0 0 0",
        };
        let output = run_calls(&[call(place as u8 + 1, 1, b"AA.", b"x")]);
        assert_eq!(output.trim_end(), expected, "{letters:?}");
    }
}

#[test]
fn cut_body() {
    let whole = call(HI, 1, b"", b"");
    for length in 1..=BODY {
        let output = run_calls(&[whole.clone(), whole[..length].to_vec()]);
        assert_eq!(output, "0 1 0 0\nbad\n", "{length} bytes");
    }
    assert_eq!(run_calls(&[whole.clone(), whole]), "0 1 0 0\n0 1 0 0\n");
}

#[test]
fn bad_lengths() {
    for length in 17..=255 {
        let mut bad = call(HI, 1, b"", b"");
        bad[12] = length;
        assert_eq!(run_calls(&[bad]), "bad\n", "format length {length}");
    }
    for length in 36..=255 {
        let mut bad = call(HI, 1, b"", b"");
        bad[29] = length;
        assert_eq!(run_calls(&[bad]), "bad\n", "record length {length}");
    }
    let mut greatest = call(HI, 1, b"", b"");
    greatest[12] = 16;
    greatest[29] = 35;
    assert_eq!(run_calls(&[greatest]), "0 1 0 0\n");
}

#[test]
fn nothing_follows_bad() {
    let mut bad = call(HI, 1, b"", b"");
    bad[0] = 14;
    let output = run_calls(&[bad, call(HI, 1, b"", b"")]);
    assert_eq!(output, "bad\n");
}

#[test]
fn table_alone_prints_nothing() {
    assert_eq!(run(&small_table()), "");
}

#[test]
fn users_and_options_are_no_bad_input() {
    for user in [0, 33, 255] {
        let mut other = call(HI, 1, b"", b"");
        other[1] = user;
        assert_eq!(run_calls(&[other]), "72 0 0 0\n");
    }
    let mut other = call(HI, 1, b"", b"");
    other[2] = 0;
    assert_eq!(run_calls(&[other]), "22 0 0 0\n");
}

#[test]
fn numbers_have_the_high_byte_first() {
    // File 1 has 258 ISNs; OP sets time limit 256; the clock is 4 bytes.
    let table = table(&[file(1, 258), field(b"AA", 1, b'A', b' ')]);
    let mut op = call(12, 0, b"", b"");
    op[6..8].copy_from_slice(&[1, 0]);
    let hi = call(HI, 0x0102, b"", b"");
    let mut at_256 = call(2, 0, b"", b"");
    at_256[8..12].copy_from_slice(&[0, 0, 1, 0]);
    let mut at_257 = call(HI, 1, b"", b"");
    at_257[8..12].copy_from_slice(&[0, 0, 1, 1]);
    let input = [table, op, hi.clone(), at_256, hi, at_257].concat();
    // The second HI starts no new transaction: it is still the one begun at 0.
    assert_eq!(
        run(&input),
        "0 0 0 0\n0 258 0 0\n0 0 1 0\n0 258 0 0\n9 0 0 0\n"
    );
}

#[test]
fn bytes_are_printed_in_capitals_after_good_reads_only() {
    let output = run_calls(&[
        call(N1, 0, b"AA.", b"\xAB"),
        call(L1, 1, b"AA,AA.", &[0; 2]),
        call(L1, 1, b"AA.", &[0; 5]),
        call(4, 1, b"AA.", &[0]),
        call(L1, 2, b"AA.", &[0]),
        call(RE, 0, b"", b""),
        call(ET, 0, b"", b"\x0F\xF0"),
        call(RE, 0, b"", &[1; 35]),
        call(RE, 0, b"", &[1]),
    ]);
    let expected = "0 1 0 0\n0 1 2 0 ABAB\n0 1 1 0 AB\n0 1 1 0 AB\n113 0 0 0\n0 0 0 0\n0 0 1 1\n0 0 2 0 0FF0\n53 0 0 0\n";
    assert_eq!(output, expected);
}

#[test]
fn hold_queue_of_64() {
    let table = table(&[file(1, 100), field(b"AA", 1, b'A', b' ')]);
    let mut input = table;
    let mut op = call(12, 200, b"", b"");
    op[0] = 12;
    input.extend(op);
    for isn in 1..=65 {
        input.extend(call(HI, isn, b"", b""));
    }
    let output = run(&input);
    let lines: Vec<&str> = output.lines().collect();
    assert_eq!(lines[64], "0 64 0 0");
    assert_eq!(lines[65], "70 0 0 0");
}

/// Any bytes give lines and at most one `bad`, at the end.
#[test]
fn any_input() {
    let mut random = second::random::Random::new(1);
    for _ in 0..3000 {
        let mut input = small_table();
        for _ in 0..random.below(6) {
            let kind = random.below(15) as u8;
            let mut body = call(kind, random.below(4) as u16, b"AA.", b"x");
            let place = random.below(65) as usize;
            body[place] = random.number() as u8;
            input.extend(body);
        }
        let cut = random.below(input.len() as u64 + 20) as usize;
        input.truncate(cut);
        let output = run(&input);
        let bad = output.lines().filter(|line| *line == "bad").count();
        assert!(bad == 0 || (bad == 1 && output.ends_with("bad\n")));
        let whole = input.len() >= 11 && (input.len() - 11).is_multiple_of(65);
        assert!(bad == 1 || whole, "cut input is bad");
    }
}
