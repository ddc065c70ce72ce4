//! Call lists of the record nucleus as text: reading them, and running them on anything that answers calls.
//!
//! Two notations are read, line by line, also mixed in one text: the lines of the program `lists` (`list ...`,
//! `call ...`) and the items of vector files (`example: ...`, `call: ...`). second/README.md has both. What stands
//! after `->` may be missing: then nothing is compared.
//!
//! ```
//! let text = "example: one record\n\
//!             table: 01010003 024141014120 00\n\
//!             call: N1 format=AA. text=x -> 0 1 0 0\n\
//!             call: L1 isn=1 format=AA. length=1 -> 0 1 1 0 78\n";
//! let lists = call_lists::read(text).unwrap();
//! assert_eq!(lists[0].calls[1].call.isn, 1);
//!
//! let wrong = call_lists::read(text.replace("isn=1", "isn=one")).unwrap_err();
//! assert_eq!(wrong.to_string(), "line 4: expected isn= with a number from 0 to 65535, found one");
//! ```

mod items;
mod lines;
mod outcome;
mod reader;
mod values;

pub use items::{items, numbered, read_call, Item};
pub use outcome::{answer_line, run_call, written, Nucleus, Outcome};
pub use reader::read;
pub use values::{bytes, hex, number};

use std::fmt;

/// A call as it is brought. Nothing is judged here: any bytes can be sent.
#[derive(Clone, Debug, PartialEq, Eq)]
pub struct Call {
    pub command: [u8; 2],
    pub option: u8,
    pub user: u8,
    pub file: u8,
    pub isn: u16,
    pub limit: u16,
    pub clock: u32,
    pub format: Vec<u8>,
    pub record: Vec<u8>,
}

#[derive(Clone, Copy, Debug, Default, PartialEq, Eq)]
pub struct Answer {
    pub response: u16,
    pub isn: u16,
    pub quantity: usize,
    pub sequence: u32,
}

/// What a line says after `->`.
#[derive(Clone, Debug, Default, PartialEq, Eq)]
pub struct Expected {
    pub answer: Answer,
    /// The bytes that a good L1, L4 or RE wrote; none where the line does not speak of them.
    pub written: Option<Vec<u8>>,
    /// The whole record buffer after the call; none where the line does not speak of it.
    pub after: Option<Vec<u8>>,
}

/// A call of a list, with the line that it stands on, from 1.
#[derive(Clone, Debug, PartialEq, Eq)]
pub struct ListedCall {
    pub line: usize,
    /// The line up to `->`, as it is written; of a range of ISNs the one ISN.
    pub text: String,
    pub call: Call,
    pub expected: Option<Expected>,
}

/// A nucleus to set up and the calls on it.
#[derive(Clone, Debug, Default, PartialEq, Eq)]
pub struct List {
    /// The line of its head, from 1.
    pub line: usize,
    /// The example's name; `seed=N` of a `list` line.
    pub name: String,
    pub section: String,
    pub words: Vec<String>,
    pub table: Vec<u8>,
    pub capacity: u32,
    /// The lent buffers of a `list` line; an example has just large enough ones.
    pub lent: Option<Lent>,
    pub calls: Vec<ListedCall>,
}

/// Lengths of the lent buffers, `queue` in entries, and what every lent byte is at first.
#[derive(Clone, Copy, Debug, Default, PartialEq, Eq)]
pub struct Lent {
    pub store: usize,
    pub queue: usize,
    pub images: usize,
    pub fill: u8,
}

/// What was expected in a place, and what stands there.
#[derive(Clone, Debug, PartialEq, Eq)]
pub struct Wrong {
    pub expected: String,
    pub found: String,
}

/// A line that cannot be read.
#[derive(Clone, Debug, PartialEq, Eq)]
pub struct BadLine {
    pub line: usize,
    pub wrong: Wrong,
}

impl Wrong {
    pub fn new(expected: impl Into<String>, found: &str) -> Wrong {
        Wrong {
            expected: expected.into(),
            found: shortened(found),
        }
    }

    pub fn at(self, line: usize) -> BadLine {
        BadLine { line, wrong: self }
    }

    /// The same under the key that it stands behind.
    pub(crate) fn under(self, key: &str) -> Wrong {
        Wrong {
            expected: format!("{key}= with {}", self.expected),
            ..self
        }
    }
}

/// Long text is cut, so that a message stays one line.
fn shortened(text: &str) -> String {
    const LONGEST: usize = 60;
    match text.char_indices().nth(LONGEST) {
        _ if text.is_empty() => "nothing".to_string(),
        Some((end, _)) => format!("{}..", &text[..end]),
        None => text.to_string(),
    }
}

impl fmt::Display for Wrong {
    fn fmt(&self, formatter: &mut fmt::Formatter) -> fmt::Result {
        write!(
            formatter,
            "expected {}, found {}",
            self.expected, self.found
        )
    }
}

impl fmt::Display for BadLine {
    fn fmt(&self, formatter: &mut fmt::Formatter) -> fmt::Result {
        write!(formatter, "line {}: {}", self.line, self.wrong)
    }
}

impl std::error::Error for BadLine {}
