//! Calls with their buffers, as data, and the values that they bring.

use crate::tables::{self, WIDTH};
use second::state;
use towungbe::{Call, Command, CommandOption};

#[derive(Clone, Debug)]
pub struct Step {
    pub call: Call,
    pub format: &'static [u8],
    pub record: Vec<u8>,
}

impl Step {
    fn new(call: Call, format: &'static [u8], record: Vec<u8>) -> Step {
        Step {
            call,
            format,
            record,
        }
    }

    /// ET, BT and whatever needs neither file nor buffers.
    pub fn end(command: Command, user: u8) -> Step {
        Step::new(Call::new(command, user), b"", Vec::new())
    }

    /// HI or RI of an ISN.
    pub fn hold(command: Command, user: u8, file: u8, isn: u16) -> Step {
        let call = Call::new(command, user).with_file(file).with_isn(isn);
        Step::new(call, b"", Vec::new())
    }

    /// L1 or L4 of a whole household.
    pub fn read(command: Command, user: u8, file: u8, isn: u16) -> Step {
        let call = Call::new(command, user).with_file(file).with_isn(isn);
        Step::new(call, tables::ALL, vec![0; WIDTH])
    }

    /// A1; option `H` takes the hold where the user has none.
    pub fn change(user: u8, file: u8, isn: u16, format: &'static [u8], record: Vec<u8>) -> Step {
        let call = Call::new(Command::A1, user).with_file(file).with_isn(isn);
        Step::new(call.with_option(CommandOption::Hold), format, record)
    }

    /// E1 with the hold.
    pub fn empty(user: u8, file: u8, isn: u16) -> Step {
        let call = Call::new(Command::E1, user).with_file(file).with_isn(isn);
        Step::new(call.with_option(CommandOption::Hold), b"", Vec::new())
    }

    /// N1 of a whole household.
    pub fn add(user: u8, file: u8, record: Vec<u8>) -> Step {
        let call = Call::new(Command::N1, user).with_file(file);
        Step::new(call, tables::ALL, record)
    }

    /// A call that is refused with 22, behind all checks of the state.
    pub fn refused() -> Step {
        let call = Call {
            command: *b"??",
            ..Call::new(Command::Et, 1)
        };
        Step::new(call, b"", Vec::new())
    }

    pub fn at(mut self, clock: u32) -> Step {
        self.call.clock = clock;
        self
    }

    /// The call for the second implementation.
    pub fn second(&self) -> state::Call {
        let call = self.call;
        state::Call {
            command: call.command,
            option: call.option,
            user: call.user,
            file: call.file,
            isn: call.isn,
            limit: call.limit,
            clock: call.clock,
        }
    }
}

/// The ring code with a number: eight letters, different for different numbers below 26^8. The factor has none of 26's,
/// so that it mixes the letters and takes no two numbers together.
pub fn ring_code(number: u64) -> [u8; 8] {
    const CODES: u128 = 26u128.pow(8);
    let mut rest = u128::from(number) * 123_456_789_011 % CODES;
    [(); 8].map(|()| {
        let letter = b'A' + (rest % 26) as u8;
        rest /= 26;
        letter
    })
}

/// A ring code whose first four letters all have; different for different numbers below 26^4.
pub fn alike_code(number: u64) -> [u8; 8] {
    let [a, b, c, d, ..] = ring_code(number);
    [b'R', b'I', b'N', b'G', a, b, c, d]
}

/// A feed account: nine digits and a sign, as it is stored.
pub fn feed_account(number: u64) -> [u8; 5] {
    let pair = |digits: u64| (digits / 10 % 10 * 16 + digits % 10) as u8;
    let [a, b, c, d] = [10_000_000, 100_000, 1000, 10].map(|unit| pair(number / unit));
    [a, b, c, d, (number % 10 * 16 + 0x0F) as u8]
}

/// A whole household with a ring code.
pub fn household(code: [u8; 8], number: u64) -> Vec<u8> {
    let name = format!("HOUSEHOLD {number:<10}");
    let road = format!("ROAD{:04}", number % 10_000);
    let mut record = code.to_vec();
    record.extend(&name.as_bytes()[..20]);
    record.extend(feed_account(number));
    record.extend((number as u32).to_be_bytes());
    record.extend(road.as_bytes());
    record
}
