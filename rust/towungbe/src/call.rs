//! A call and its answer.

use crate::raw::Block;
use crate::Response;

macro_rules! commands {
    ($($name:ident = $code:literal, $about:literal;)*) => {
        /// A command code.
        #[derive(Clone, Copy, Debug, PartialEq, Eq)]
        pub enum Command {
            $(#[doc = $about] $name,)*
        }

        impl Command {
            /// Every command, in document 01's order, and behind them those that came later.
            pub const ALL: [Command; 14] = [$(Command::$name),*];

            /// The two letters.
            pub fn code(self) -> [u8; 2] {
                match self {
                    $(Command::$name => *$code,)*
                }
            }
        }
    };
}

commands! {
    Hi = b"HI", "Holds an ISN, record or not.";
    Ri = b"RI", "Drops the user's unchanged hold of an ISN; of all ISNs for ISN 0.";
    L1 = b"L1", "Reads a record.";
    L4 = b"L4", "Holds and reads a record.";
    A1 = b"A1", "Replaces the named fields of a record that the user holds.";
    E1 = b"E1", "Empties an ISN that the user holds.";
    N1 = b"N1", "Adds a record at the next free ISN, and holds it.";
    N2 = b"N2", "Adds a record at the given ISN, and holds it.";
    Et = b"ET", "Ends the transaction: its changes stay. The record buffer, if any, is kept as ET data.";
    Bt = b"BT", "Backs the transaction out.";
    Re = b"RE", "Reads the user's ET data.";
    Op = b"OP", "Opens a session: the ISN is its hold limit, the limit its time limit.";
    Cl = b"CL", "Closes the session.";
    Pe = b"PE", "Sets the transaction ready: until ET or BT ends it the user may call nothing else, and no time limit backs it out.";
}

/// A command option.
#[derive(Clone, Copy, Debug, PartialEq, Eq)]
pub enum CommandOption {
    /// The blank.
    None,
    /// `I` of L1 and L4: the lowest ISN at or above the given one that has a record.
    Lowest,
    /// `C` of L1: the record as ended transactions left it.
    Committed,
    /// `W` of HI and L4: waits in line where another user holds the record.
    Wait,
    /// `H` of A1 and E1: takes the hold.
    Hold,
    /// `A` of OP: the user may only read.
    AccessOnly,
}

impl CommandOption {
    pub fn code(self) -> u8 {
        match self {
            CommandOption::None => b' ',
            CommandOption::Lowest => b'I',
            CommandOption::Committed => b'C',
            CommandOption::Wait => b'W',
            CommandOption::Hold => b'H',
            CommandOption::AccessOnly => b'A',
        }
    }
}

/// A call's arguments but for its two buffers. The fields are plain bytes and numbers, for any are answered.
///
/// ```
/// use towungbe::{Call, Command, CommandOption};
/// let change = Call::new(Command::A1, 7).with_option(CommandOption::Hold).with_file(1).with_isn(3);
/// assert_eq!((change.command, change.option), (*b"A1", b'H'));
/// let nonsense = Call { command: [0, 255], ..change };
/// # let _ = nonsense;
/// ```
#[derive(Clone, Copy, Debug, PartialEq, Eq)]
pub struct Call {
    pub command: [u8; 2],
    pub option: u8,
    pub user: u8,
    pub file: u8,
    pub isn: u16,
    pub limit: u16,
    /// In seconds; the nucleus keeps the greatest that it was given.
    pub clock: u32,
}

impl Call {
    /// A call with blank option, and 0 for all else.
    pub fn new(command: Command, user: u8) -> Call {
        Call {
            command: command.code(),
            option: CommandOption::None.code(),
            user,
            file: 0,
            isn: 0,
            limit: 0,
            clock: 0,
        }
    }

    pub fn with_option(self, option: CommandOption) -> Call {
        let option = option.code();
        Call { option, ..self }
    }

    pub fn with_file(self, file: u8) -> Call {
        Call { file, ..self }
    }

    pub fn with_isn(self, isn: u16) -> Call {
        Call { isn, ..self }
    }

    pub fn with_limit(self, limit: u16) -> Call {
        Call { limit, ..self }
    }

    pub fn with_clock(self, clock: u32) -> Call {
        Call { clock, ..self }
    }
}

impl From<Call> for Block {
    fn from(call: Call) -> Block {
        Block {
            command: call.command,
            option: call.option,
            user: call.user,
            file: call.file,
            isn: call.isn,
            limit: call.limit,
            clock: call.clock,
            ..Block::default()
        }
    }
}

#[derive(Clone, Copy, Debug, PartialEq, Eq)]
pub struct Answer {
    pub response: Response,
    /// The ISN read, held, changed, emptied, added or released.
    pub isn: u16,
    /// Bytes written by L1, L4 or RE; entries removed by RI, ET or BT.
    pub quantity: usize,
    /// The transaction sequence number, after ET and CL.
    pub sequence: u32,
}
