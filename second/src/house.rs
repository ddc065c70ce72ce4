//! The house call list: program `partycall` from its input bytes to its output text.

use crate::definition;
use crate::machine::Machine;
use crate::random::List;
use crate::state::{Answer, Call, COMMANDS};

pub const STORE: usize = 32768;
pub const CAPACITY: u32 = 64;
const BODY: usize = 64;
const FORMAT: usize = 16;
const RECORD: usize = 35;
/// Where a call's format length and record length are, its kind byte at 0.
pub const FORMAT_LENGTH: usize = 12;
pub const RECORD_LENGTH: usize = 29;
/// The greatest width is 512, so no table needs more.
pub const IMAGES: usize = CAPACITY as usize * definition::MAX_RECORD_LENGTH;

/// The whole output. A bad table, kind, length or cut body ends it with the line `bad`.
pub fn run(input: &[u8]) -> String {
    let Some((mut machine, mut rest)) = set_up(input) else {
        return "bad\n".to_string();
    };
    let mut output = String::new();
    while !rest.is_empty() {
        let Some((request, tail)) = read_call(rest) else {
            return output + "bad\n";
        };
        output += &answer_line(&mut machine, request);
        output.push('\n');
        rest = tail;
    }
    output
}

/// Reads the table and sets up; answers the nucleus and the rest of the input.
fn set_up(input: &[u8]) -> Option<(Machine, &[u8])> {
    let (table, rest) = parted(input)?;
    let queue = CAPACITY as usize;
    let machine = Machine::with_sizes(table, CAPACITY, STORE, queue, IMAGES, 0).ok()?;
    Some((machine, rest))
}

/// The table, and what follows it; none where an item is of an unknown kind or the end is missing.
pub fn parted(input: &[u8]) -> Option<(&[u8], &[u8])> {
    Some(input.split_at(definition::table_length(input)?))
}

pub struct Request<'a> {
    pub call: Call,
    pub format: &'a [u8],
    pub record: &'a [u8],
}

/// "A call is one byte, its place in the table of commands from 1, then 64 bytes." Answers the call and what follows
/// it; none where it is bad.
pub fn read_call(input: &[u8]) -> Option<(Request<'_>, &[u8])> {
    let (kind, rest) = input.split_first()?;
    let (_, command) = COMMANDS.get(usize::from(*kind).checked_sub(1)?)?;
    if rest.len() < BODY {
        return None;
    }
    let (body, tail) = rest.split_at(BODY);
    Some((read_body(*command, body)?, tail))
}

/// "User 1, option 1, file 1, ISN 2, limit 2, clock 4, format length 1, format 16, record length 1, record 35."
fn read_body(command: [u8; 2], body: &[u8]) -> Option<Request<'_>> {
    let call = Call {
        command,
        user: body[0],
        option: body[1],
        file: body[2],
        isn: u16::from_be_bytes([body[3], body[4]]),
        limit: u16::from_be_bytes([body[5], body[6]]),
        clock: u32::from_be_bytes([body[7], body[8], body[9], body[10]]),
    };
    let format = &body[12..12 + FORMAT];
    let record = &body[29..29 + RECORD];
    Some(Request {
        call,
        format: format.get(..usize::from(body[11]))?,
        record: record.get(..usize::from(body[28]))?,
    })
}

/// The bytes of a call; none where the command is unknown or a buffer is too long.
pub fn call_bytes(call: &Call, format: &[u8], record: &[u8]) -> Option<Vec<u8>> {
    if format.len() > FORMAT || record.len() > RECORD {
        return None;
    }
    let place = COMMANDS
        .iter()
        .position(|(_, code)| *code == call.command)?;
    let mut bytes = vec![place as u8 + 1, call.user, call.option, call.file];
    bytes.extend(call.isn.to_be_bytes());
    bytes.extend(call.limit.to_be_bytes());
    bytes.extend(call.clock.to_be_bytes());
    bytes.push(format.len() as u8);
    bytes.extend(format);
    bytes.resize(RECORD_LENGTH, 0);
    bytes.push(record.len() as u8);
    bytes.extend(record);
    bytes.resize(1 + BODY, 0);
    Some(bytes)
}

/// A list as `partycall` reads it: the table, and those of its calls that can be written so.
pub fn list_bytes(list: &List) -> Vec<u8> {
    let mut bytes = list.table.clone();
    let calls = list
        .calls
        .iter()
        .filter_map(|brought| call_bytes(&brought.call, &brought.format, &brought.record));
    calls.for_each(|call| bytes.extend(call));
    bytes
}

fn answer_line(machine: &mut Machine, request: Request) -> String {
    let mut record = request.record.to_vec();
    let answer = machine.call(&request.call, request.format, &mut record);
    line(&request.call, &answer, &record)
}

/// The line of an answer, with the bytes that a good L1, L4 or RE wrote.
pub fn line(call: &Call, answer: &Answer, record: &[u8]) -> String {
    call_lists::answer_line(call.command, &(*answer).into(), record)
}
