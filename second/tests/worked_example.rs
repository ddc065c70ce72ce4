//! The house call list of document 01, to the byte.

use call_lists::bytes;
use second::house;

const OUTPUT: &str = "0 1 0 0
0 0 1 1
0 1 0 0
198 0 0 0
145 0 0 0
0 0 1 0
0 1 3 0 324142
";

/// A call of the list: clock 0, file 1, limit 0.
fn call(kind: u8, user: u8, option: u8, isn: u16, format: &[u8], record: &[u8]) -> Vec<u8> {
    let mut call = vec![kind, user, option, 1];
    call.extend(isn.to_be_bytes());
    call.extend([0; 6]);
    call.push(format.len() as u8);
    call.extend(padded(format, 16));
    call.push(record.len() as u8);
    call.extend(padded(record, 35));
    call
}

fn padded(bytes: &[u8], length: usize) -> Vec<u8> {
    let mut padded = bytes.to_vec();
    padded.resize(length, 0);
    padded
}

/// The table and the seven calls in the document's words.
fn worked_example() -> Vec<u8> {
    let table = bytes("01010003 0252430141 55 0248480241 20 00").expect("table");
    let (l1, l4, a1, n1, et, bt) = (3, 4, 5, 7, 9, 10);
    [
        table,
        call(n1, 1, b' ', 0, b"RC,HH.", b"2AB"),
        call(et, 1, b' ', 0, b"", b""),
        call(a1, 1, b'H', 1, b"RC.", b"3"),
        call(n1, 2, b' ', 0, b"RC,HH.", b"2CD"),
        call(l4, 2, b' ', 1, b"RC.", &[0]),
        call(bt, 1, b' ', 0, b"", b""),
        call(l1, 2, b' ', 1, b"RC,HH.", &[0; 3]),
    ]
    .concat()
}

#[test]
fn the_seven_lines() {
    assert_eq!(house::run(&worked_example()), OUTPUT);
}

/// `tests/house_lists.rs` runs the program on the file.
#[test]
fn the_files_are_the_list_and_its_lines() {
    let file = include_bytes!("../lists/worked-example");
    assert_eq!(file[..], worked_example());
    assert_eq!(include_str!("../lists/worked-example.out"), OUTPUT);
}
