//! Definition tables.

/// A field as a table defines it: name, length, format, option.
type Field = ([u8; 2], u8, u8, u8);

/// A household: its ring code, which no other of its file has, its name, feed account, milk weight and road.
const HOUSEHOLD: [Field; 5] = [
    (*b"RC", 8, b'A', b'U'),
    (*b"HH", 20, b'A', b' '),
    (*b"FA", 5, b'P', b' '),
    (*b"MW", 4, b'B', b' '),
    (*b"RD", 8, b'A', b' '),
];

/// The lengths of all fields of a household, and of the two that a clerk changes.
pub const LENGTHS: [usize; 5] = [8, 20, 5, 4, 8];
pub const CHANGED_LENGTHS: [usize; 2] = [8, 5];
pub const WIDTH: usize = 45;
/// The bytes of an ISN in the store.
pub const SLOT: usize = 1 + WIDTH;

pub const ALL: &[u8] = b"RC,HH,FA,MW,RD.";
pub const CHANGED: &[u8] = b"RC,FA.";
pub const PLAIN: &[u8] = b"FA,MW.";

fn table(files: u8, max_isn: u16, fields: &[Field]) -> Vec<u8> {
    let [high, low] = max_isn.to_be_bytes();
    let mut table = Vec::new();
    for number in 1..=files {
        table.extend([1, number, high, low]);
        for ([first, second], length, format, option) in fields {
            table.extend([2, *first, *second, *length, *format, *option]);
        }
    }
    table.push(0);
    table
}

/// Files of households.
pub fn households(files: u8, max_isn: u16) -> Vec<u8> {
    table(files, max_isn, &HOUSEHOLD)
}

/// The same without a unique field, so that N1's search stands alone.
pub fn plain_households(max_isn: u16) -> Vec<u8> {
    let fields = HOUSEHOLD.map(|(name, length, format, _)| (name, length, format, b' '));
    table(1, max_isn, &fields)
}

/// Files of so many fields of four bytes.
pub fn of_fields(files: u8, fields: u8, max_isn: u16) -> Vec<u8> {
    let fields: Vec<Field> = (0..fields)
        .map(|place| ([b'F', b'A' + place], 4, b'A', b' '))
        .collect();
    table(files, max_isn, &fields)
}
