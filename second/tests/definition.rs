//! The rules of the definition table, and what set-up writes. A broken rule is 10 and leaves all buffers.

mod common;
use common::{field, file, table, two_files};
use second::definition::{is_valid, read_table};
use second::hold::Entry;
use second::nucleus::set_up;

fn response(table: &[u8]) -> u16 {
    let mut store = vec![7; 1 << 14];
    let mut queue = vec![Entry::default(); 4];
    let mut images = vec![7; 4 * 512];
    let answer = set_up(table, 4, &mut store, &mut queue, &mut images);
    let refused = answer.is_err();
    let untouched = store.iter().chain(&images).all(|byte| *byte == 7);
    assert_eq!(refused, untouched, "a refused set-up leaves all buffers");
    assert!(queue.iter().all(|entry| *entry == Entry::default()));
    assert_eq!(
        refused,
        read_table(table).is_none(),
        "10 is the only cause here"
    );
    answer.err().unwrap_or(0)
}

fn one_field(name: &[u8; 2], length: u8, format: u8, option: u8) -> Vec<u8> {
    table(&[file(1, 1), field(name, length, format, option)])
}

#[test]
fn any_bytes_that_are_no_table() {
    let good = one_field(b"AA", 1, b'A', b' ');
    assert_eq!(response(&good), 0);
    assert_eq!(response(&[]), 10);
    assert_eq!(response(&[0]), 10);
    for length in 0..good.len() {
        assert_eq!(response(&good[..length]), 10, "cut to {length}");
    }
    for after in 0..=2 {
        assert_eq!(
            response(&[&good[..], &[after]].concat()),
            10,
            "byte after the end"
        );
    }
    for kind in 3..=255 {
        let mut bad = good.clone();
        bad[4] = kind;
        assert_eq!(response(&bad), 10, "kind {kind}");
    }
}

#[test]
fn file_number_and_highest_isn() {
    let aa = field(b"AA", 1, b'A', b' ');
    for number in 0..=255 {
        let expected = if (1..=16).contains(&number) { 0 } else { 10 };
        assert_eq!(response(&table(&[file(number, 1), aa.clone()])), expected);
    }
    for (max_isn, expected) in [
        (0, 10),
        (1, 0),
        (255, 0),
        (256, 0),
        (4095, 0),
        (4096, 10),
        (65535, 10),
    ] {
        assert_eq!(response(&table(&[file(1, max_isn), aa.clone()])), expected);
    }
}

#[test]
fn no_file_number_twice() {
    let aa = field(b"AA", 1, b'A', b' ');
    let with = |numbers: &[u8]| {
        let items: Vec<Vec<u8>> = numbers
            .iter()
            .flat_map(|number| [file(*number, 1), aa.clone()])
            .collect();
        response(&table(&items))
    };
    assert_eq!(with(&[1, 2]), 0);
    assert_eq!(with(&[2, 1]), 0);
    assert_eq!(with(&[1, 1]), 10);
    assert_eq!(with(&[3, 1, 3]), 10);
    let all: Vec<u8> = (1..=16).collect();
    assert_eq!(with(&all), 0);
    assert_eq!(with(&[&all[..], &[1]].concat()), 10);
}

#[test]
fn fields_of_a_file() {
    let fields = |count: u8| {
        let mut items = vec![file(1, 1)];
        items.extend((0..count).map(|place| field(&[b'A', b'A' + place], 1, b'A', b' ')));
        response(&table(&items))
    };
    for (count, expected) in [(0, 10), (1, 0), (16, 0), (17, 10), (18, 10)] {
        assert_eq!(fields(count), expected, "{count} fields");
    }
    let aa = field(b"AA", 1, b'A', b' ');
    let ab = field(b"AB", 1, b'A', b' ');
    assert_eq!(
        response(&[&aa[..], &[0]].concat()),
        10,
        "a field before a file"
    );
    assert_eq!(response(&table(&[aa.clone(), file(1, 1), ab.clone()])), 10);
    assert_eq!(response(&table(&[file(1, 1), file(2, 1), aa.clone()])), 10);
    assert_eq!(response(&table(&[file(1, 1), aa.clone(), file(2, 1)])), 10);
    assert_eq!(
        response(&table(&[file(1, 1), aa.clone(), ab.clone(), aa.clone()])),
        10
    );
    let shared = [file(1, 1), aa.clone(), file(2, 1), aa];
    assert_eq!(response(&table(&shared)), 0, "two files may share a name");
}

#[test]
fn names() {
    for first in 0..=255u8 {
        for second in 0..=255u8 {
            let good = first.is_ascii_uppercase()
                && (second.is_ascii_uppercase() || second.is_ascii_digit());
            let definition = read_table(&one_field(&[first, second], 1, b'A', b' '));
            assert_eq!(definition.is_some(), good, "{first:02X}{second:02X}");
        }
    }
}

#[test]
fn lengths_formats_and_options() {
    for format in 0..=255u8 {
        let greatest = match format {
            b'A' => 253,
            b'B' => 126,
            b'U' => 29,
            b'P' => 15,
            _ => 0,
        };
        for length in 0..=255u8 {
            let good = length >= 1 && length <= greatest;
            let definition = read_table(&one_field(b"AA", length, format, b' '));
            assert_eq!(definition.is_some(), good, "{format:02X} {length}");
        }
    }
    for option in 0..=255u8 {
        let good = matches!(option, b' ' | b'D' | b'U');
        assert_eq!(
            response(&one_field(b"AA", 1, b'A', option)),
            if good { 0 } else { 10 }
        );
    }
}

#[test]
fn width_of_at_most_512() {
    let width = |last| {
        response(&table(&[
            file(1, 1),
            field(b"AA", 253, b'A', b' '),
            field(b"AB", 253, b'A', b' '),
            field(b"AC", last, b'A', b' '),
        ]))
    };
    assert_eq!(width(6), 0);
    assert_eq!(width(7), 10);
}

/// "Set-up puts 0 in every first byte of an ISN and writes nothing else lent."
#[test]
fn set_up_writes_first_bytes_only() {
    // File 1: three ISNs of 1 + 3 bytes; file 2: two of 1 + 5.
    let first_bytes = [0, 4, 8, 12, 18];
    let mut store = vec![7; 30];
    let entry = Entry {
        user: 9,
        file: 9,
        isn: 9,
        changed: true,
        existed: true,
    };
    let mut queue = vec![entry; 5];
    let mut images = vec![7; 30];
    let state = set_up(&two_files(), 4, &mut store, &mut queue, &mut images).expect("set-up");
    for (place, byte) in store.iter().enumerate() {
        let expected = if first_bytes.contains(&place) { 0 } else { 7 };
        assert_eq!(*byte, expected, "byte {place}");
    }
    assert_eq!(queue, vec![entry; 5]);
    assert_eq!(images, vec![7; 30]);
    assert_eq!((state.clock, state.entries), (0, 0));
    assert_eq!(state.last_assigned, [0; 16]);
    for user in state.users {
        assert!(!user.session && !user.in_transaction && !user.overdue && user.et_length == 0);
    }
}

/// A kept table is judged by its places in use; the others may have anything, counts too.
#[test]
fn kept_table() {
    let good = read_table(&two_files()).expect("good");
    let mut garbage = good;
    garbage.files[0].fields[2].length = 255;
    garbage.files[1].fields[15].name = *b"DA";
    garbage.files[2].number = 1;
    garbage.files[15].count = 255;
    assert!(is_valid(&garbage));
    for count in [0, 3, 17, 255] {
        let mut bad = good;
        bad.count = count;
        assert!(!is_valid(&bad), "{count} files");
        let mut bad = good;
        bad.files[1].count = count;
        let same = count == good.files[1].count;
        assert_eq!(is_valid(&bad), same, "{count} fields");
    }
}
