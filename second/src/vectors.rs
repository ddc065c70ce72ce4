//! Vector files: examples of a table, calls and their expected answers. `call_lists` reads them; here they run.

use crate::house;
use crate::machine::Machine;
use crate::random::ListCall;
use crate::state::{Answer, Call};
use call_lists::{List, ListedCall, Nucleus, Wrong};

/// Reads a vector file, in which every call has an answer; the error names the line.
pub fn read(text: &str) -> Result<Vec<List>, String> {
    let examples = call_lists::read(text).map_err(|bad| bad.to_string())?;
    let mut calls = examples.iter().flat_map(|example| &example.calls);
    match calls.find(|call| call.expected.is_none()) {
        Some(call) => Err(Wrong::new("an answer after ->", "")
            .at(call.line)
            .to_string()),
        None => Ok(examples),
    }
}

/// Runs an example on a fresh nucleus with just large enough buffers; the error names the line that differs.
pub fn run(example: &List) -> Result<(), String> {
    let name = &example.name;
    let mut machine = Machine::new(&example.table, example.capacity, 0)
        .map_err(|response| format!("{name}: set-up answers {response}"))?;
    for listed in &example.calls {
        let outcome = call_lists::run_call(&mut machine, &listed.call);
        listed
            .check(&outcome)
            .map_err(|error| format!("{name}, line {}: {error}", listed.line))?;
    }
    Ok(())
}

/// Makes the call; gives the answer, the record buffer after it and the line of the house call list.
pub fn run_call(machine: &mut Machine, listed: &ListedCall) -> (Answer, Vec<u8>, String) {
    let ListCall {
        call,
        format,
        mut record,
    } = ListCall::from(&listed.call);
    let answer = machine.call(&call, &format, &mut record);
    let line = house::line(&call, &answer, &record);
    (answer, record, line)
}

impl Nucleus for Machine {
    fn answer(&mut self, call: &call_lists::Call, record: &mut [u8]) -> call_lists::Answer {
        self.call(&Call::from(call), &call.format, record).into()
    }
}

impl From<&call_lists::Call> for Call {
    fn from(call: &call_lists::Call) -> Call {
        Call {
            command: call.command,
            option: call.option,
            user: call.user,
            file: call.file,
            isn: call.isn,
            limit: call.limit,
            clock: call.clock,
        }
    }
}

impl From<&call_lists::Call> for ListCall {
    fn from(call: &call_lists::Call) -> ListCall {
        ListCall {
            call: Call::from(call),
            format: call.format.clone(),
            record: call.record.clone(),
        }
    }
}

impl From<Answer> for call_lists::Answer {
    fn from(answer: Answer) -> call_lists::Answer {
        call_lists::Answer {
            response: answer.response,
            isn: answer.isn,
            quantity: answer.quantity,
            sequence: answer.sequence,
        }
    }
}
