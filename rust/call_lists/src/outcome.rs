//! What a call gave, beside what its line expects.

use crate::{hex, Answer, Call, Expected, ListedCall};
use std::fmt;

/// Anything that answers calls: a list can be run on it.
pub trait Nucleus {
    /// Makes the call; `record` is the record buffer, at first as the call brings it.
    fn answer(&mut self, call: &Call, record: &mut [u8]) -> Answer;
}

/// What a call answered, and the record buffer after it.
#[derive(Clone, Debug, PartialEq, Eq)]
pub struct Outcome {
    pub answer: Answer,
    pub after: Vec<u8>,
}

/// Makes one call.
pub fn run_call(nucleus: &mut dyn Nucleus, call: &Call) -> Outcome {
    let mut after = call.record.clone();
    let answer = nucleus.answer(call, &mut after);
    Outcome { answer, after }
}

/// The bytes that a good L1, L4 or RE wrote.
pub fn written<'a>(command: [u8; 2], answer: &Answer, after: &'a [u8]) -> &'a [u8] {
    match &command {
        b"L1" | b"L4" | b"RE" if answer.response == 0 => {
            after.get(..answer.quantity).unwrap_or(after)
        }
        _ => &[],
    }
}

/// "Response, ISN, quantity, sequence, and after a good L1, L4 or RE that wrote something the bytes in capital
/// hexadecimal without blanks; one blank stands between these parts."
pub fn answer_line(command: [u8; 2], answer: &Answer, after: &[u8]) -> String {
    let line = numbers(answer);
    match written(command, answer, after) {
        [] => line,
        written => format!("{line} {}", hex(written)),
    }
}

fn numbers(answer: &Answer) -> String {
    let Answer {
        response,
        isn,
        quantity,
        sequence,
    } = answer;
    format!("{response} {isn} {quantity} {sequence}")
}

impl Expected {
    /// Whether this came.
    fn is_met(&self, call: &Call, outcome: &Outcome) -> bool {
        let Outcome { answer, after } = outcome;
        let same = |expected: &Option<Vec<u8>>, found: &[u8]| {
            expected.as_ref().is_none_or(|expected| expected == found)
        };
        self.answer == *answer
            && same(&self.written, written(call.command, answer, after))
            && same(&self.after, after)
    }
}

/// As it stands after `->`.
impl fmt::Display for Expected {
    fn fmt(&self, formatter: &mut fmt::Formatter) -> fmt::Result {
        write!(formatter, "{}", numbers(&self.answer))?;
        if let Some(written) = self.written.as_ref().filter(|written| !written.is_empty()) {
            write!(formatter, " {}", hex(written))?;
        }
        match &self.after {
            Some(after) => write!(formatter, " after={}", hex(after)),
            None => Ok(()),
        }
    }
}

impl ListedCall {
    /// What came, as it would stand after `->` in this call's notation. An item has `after=` where there is a record
    /// buffer.
    pub fn found(&self, outcome: &Outcome) -> String {
        let Outcome { answer, after } = outcome;
        if !self.text.starts_with("call:") {
            return format!("{} after={}", numbers(answer), hex(after));
        }
        let line = answer_line(self.call.command, answer, after);
        match &after[..] {
            [] => line,
            _ => format!("{line} after={}", hex(after)),
        }
    }

    /// Whether what came is as the line expects; the error says what was expected and found. A line that expects nothing
    /// is met.
    pub fn check(&self, outcome: &Outcome) -> Result<(), String> {
        match &self.expected {
            Some(expected) if !expected.is_met(&self.call, outcome) => Err(format!(
                "expected {expected}, found {}",
                self.found_beside(expected, outcome)
            )),
            _ => Ok(()),
        }
    }

    /// What came, with as much of the record buffer as the line expects.
    fn found_beside(&self, expected: &Expected, outcome: &Outcome) -> String {
        match expected.after {
            Some(_) => self.found(outcome),
            None => answer_line(self.call.command, &outcome.answer, &outcome.after),
        }
    }
}
