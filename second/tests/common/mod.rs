//! A bench for tests: scripts of calls with expected answers in the vector file's notation.
#![allow(dead_code)]

use second::compare;
use second::machine::Machine;
use second::random::ListCall;
use second::vectors;

/// The item of a file.
pub fn file(number: u8, max_isn: u16) -> Vec<u8> {
    let [high, low] = max_isn.to_be_bytes();
    vec![1, number, high, low]
}

/// The item of a field.
pub fn field(name: &[u8; 2], length: u8, format: u8, option: u8) -> Vec<u8> {
    vec![2, name[0], name[1], length, format, option]
}

/// The items, then the end.
pub fn table(items: &[Vec<u8>]) -> Vec<u8> {
    let mut table = items.concat();
    table.push(0);
    table
}

/// The table of most tests. File 1 has highest ISN 3: AA, 1 byte `A`, unique; AB, 2 bytes `A`. File 2 has highest
/// ISN 2: DA, 2 digits `U`; PA, 2 bytes `P`, unique; BA, 1 byte `B`, descriptor.
pub fn two_files() -> Vec<u8> {
    table(&[
        file(1, 3),
        field(b"AA", 1, b'A', b'U'),
        field(b"AB", 2, b'A', b' '),
        file(2, 2),
        field(b"DA", 2, b'U', b' '),
        field(b"PA", 2, b'P', b'U'),
        field(b"BA", 1, b'B', b'D'),
    ])
}

pub struct Bench {
    pub machine: Machine,
    user: u8,
}

impl Bench {
    pub fn new(table: &[u8], capacity: u32) -> Bench {
        let machine = Machine::new(table, capacity, compare::FILL).expect("set-up");
        Bench { machine, user: 1 }
    }

    /// Makes each call of the script, one a line, and checks its answer and what holds of every call.
    pub fn run(&mut self, script: &str) -> &mut Bench {
        for (place, line) in script.lines().enumerate() {
            let line = line.trim();
            if !line.is_empty() && !line.starts_with('#') {
                self.call(place + 1, line);
            }
        }
        self
    }

    fn call(&mut self, place: usize, line: &str) {
        let listed = call_lists::read_call(place, self.user, line).expect(line);
        self.user = listed.call.user;
        let before = self.machine.clone();
        let (answer, record, got) = vectors::run_call(&mut self.machine, &listed);
        let expected = listed.expected.expect("an answer").to_string();
        assert_eq!(got, expected, "line {place}: {line}");
        let list_call = ListCall::from(&listed.call);
        compare::check_call(&before, &self.machine, &list_call, &answer, &record).expect(line);
    }
}

/// A bench with the table of two files and capacity 4.
pub fn bench() -> Bench {
    Bench::new(&two_files(), 4)
}

/// The arguments that let each command pass the rows that look at arguments only.
pub const GOOD_CALLS: [&str; 14] = [
    "HI isn=1",
    "RI isn=1",
    "L1 isn=1 format=AA. length=1",
    "L4 isn=1 format=AA. length=1",
    "A1 isn=1 format=AA. record=31",
    "E1 isn=1",
    "N1 format=AA. record=31",
    "N2 isn=1 format=AA. record=31",
    "ET",
    "BT",
    "RE length=64",
    "OP",
    "CL",
    "PE",
];

/// The call of `GOOD_CALLS` with this command.
pub fn good_call(command: &str) -> &'static str {
    GOOD_CALLS
        .into_iter()
        .find(|call| call.starts_with(command))
        .expect(command)
}

/// Tests named after commands, each a script on a fresh bench.
#[macro_export]
macro_rules! row {
    ($row:ident: $($command:ident $script:expr;)*) => {
        mod $row {
            #[allow(unused_imports)]
            use super::*;
            $(
                #[test]
                fn $command() {
                    bench().run($script);
                }
            )*
        }
    };
}

/// Tests named after commands, each a call of a function with the command's letters.
#[macro_export]
macro_rules! each_command {
    ($row:ident, $check:path: $($command:ident $letters:expr;)*) => {
        mod $row {
            use super::*;
            $(
                #[test]
                fn $command() {
                    $check($letters);
                }
            )*
        }
    };
}
