//! The responses: what a call answers, and why.

use std::fmt;

macro_rules! responses {
    ($($(#[$about:meta])* $name:ident = $number:literal, $explanation:literal;)*) => {
        /// A response of document 01 or 02, in the order of their numbers.
        #[derive(Clone, Copy, Debug, PartialEq, Eq, PartialOrd, Ord, Hash)]
        pub enum Response {
            $($(#[$about])* #[doc = $explanation] $name = $number,)*
        }

        impl Response {
            /// Every response, rising by number.
            pub const ALL: [Response; [$($number),*].len()] = [$(Response::$name),*];

            /// The cause in one sentence.
            pub fn explanation(self) -> &'static str {
                match self {
                    $(Response::$name => $explanation,)*
                }
            }
        }
    };
}

responses! {
    Good = 0, "The call did what it was asked to.";
    NoneFound = 3, "Option I finds no record at the given ISN or above it.";
    BackedOut = 9, "The user's transaction was backed out: it took longer than his time limit, or he called OP or CL before ending it.";
    TableInvalid = 10, "The definition table breaks a rule.";
    TooShort = 11, "A lent buffer is too short, or the hold queue's capacity is not 1 to 256.";
    NotWellMade = 12, "The kept state is not well made: no set-up and no call leaves such a state.";
    FileUndefined = 17, "The file is not defined.";
    Waiting = 20, "Another user holds the ISN, and the user waits for it in line: the same call again keeps his place.";
    CommandUnknown = 22, "The command is unknown, or the option is none of this command's.";
    AccessOnly = 29, "The user is access-only, and may call OP, CL, L1 and RE only.";
    FormatInvalid = 41, "The format buffer is neither names divided by commas and ended by a period nor a period alone, or it names a field that the file does not have.";
    FieldTwice = 44, "A field is named twice, which only reading may do.";
    HoldLimit = 47, "The call needs a new hold, and the user has as many as his hold limit allows.";
    RecordBuffer = 53, "The record buffer is shorter than the named fields or the ET data, or ET brings more than 64 bytes.";
    ValueInvalid = 55, "A value has a digit or a sign that its field's format does not allow.";
    QueueFull = 70, "The call needs a new hold, and the hold queue is full.";
    UserInvalid = 72, "The user is not 1 to 32.";
    NoFreeIsn = 75, "N1 finds no ISN without a record and without a holder.";
    IsnInvalid = 113, "The ISN is 0 or above the file's highest, or there is no record (for N2: there is one already).";
    NotHeld = 144, "The user does not hold the ISN.";
    HeldByAnother = 145, "Another user holds the ISN.";
    Changed = 146, "The user has changed the record, so RI cannot release it: ET or BT ends the transaction.";
    ValueTaken = 198, "A unique value is taken: another record has it, or gets it back if another user backs out.";
    TransactionReady = 211, "PE has set the user's transaction ready: ET or BT must end it first.";
    NoTransaction = 212, "PE is called without an open transaction.";
}

impl Response {
    pub fn number(self) -> u16 {
        self as u16
    }

    /// The response with this number; none where there is none.
    ///
    /// ```
    /// use towungbe::Response;
    /// assert_eq!(Response::from_number(198), Some(Response::ValueTaken));
    /// assert_eq!(Response::from_number(199), None);
    /// ```
    pub fn from_number(number: u16) -> Option<Response> {
        Response::ALL
            .into_iter()
            .find(|response| response.number() == number)
    }

    pub fn is_good(self) -> bool {
        self == Response::Good
    }
}

/// Number and cause.
impl fmt::Display for Response {
    fn fmt(&self, formatter: &mut fmt::Formatter) -> fmt::Result {
        write!(formatter, "{}: {}", self.number(), self.explanation())
    }
}

impl std::error::Error for Response {}
