//! Why a call was refused, in one sentence: the cause that the response's row names, as far as the call shows which; whom one
//! waits for; and to whom a hold was handed over.

use crate::implementation::Implementation;
use call_lists::Call;
use second::definition;
use towungbe::raw::Waiter;
use towungbe::{Command, CommandOption, Response};

/// Number and cause of a refusal, by the nucleus after it; none for a good call.
pub fn refusal(
    table: &[u8],
    nucleus: &dyn Implementation,
    call: &Call,
    number: u16,
) -> Option<String> {
    let why = match Response::from_number(number) {
        Some(Response::Good) => return None,
        Some(Response::Waiting) => waiting(nucleus, call),
        Some(response) => cause(table, call, response),
        None => return Some(self::response(number)),
    };
    Some(format!("{number}: {why}"))
}

/// Who holds what the caller waits for, and how many wait for it before him.
fn waiting(nucleus: &dyn Implementation, call: &Call) -> String {
    let waiters = nucleus.waiters();
    let before = waiters
        .iter()
        .take_while(|waiter| waiter.user != call.user)
        .filter(|waiter| (waiter.file, waiter.isn) == (call.file, call.isn));
    let place = match before.count() {
        0 => "this user is the first in line".to_string(),
        1 => "1 user waits before this one".to_string(),
        count => format!("{count} users wait before this one"),
    };
    match nucleus.holder(call.file, call.isn) {
        Some(holder) => format!("User {holder} holds the ISN, and {place}."),
        None => Response::Waiting.explanation().to_string(),
    }
}

/// What a call handed over: of those who waited before it, each who holds what he waited for, unless another call of his took
/// it.
pub fn handed_over(waited: &[Waiter], nucleus: &dyn Implementation, call: &Call) -> Vec<String> {
    let has_the_hold = |waiter: &&Waiter| {
        let took_it = waiter.user == call.user && !is_same_call(waiter, call);
        nucleus.holder(waiter.file, waiter.isn) == Some(waiter.user) && !took_it
    };
    let said = |waiter: &Waiter| {
        let Waiter {
            user, file, isn, ..
        } = waiter;
        format!("ISN {isn} of file {file} is handed over to user {user}, who waited for it.")
    };
    waited.iter().filter(has_the_hold).map(said).collect()
}

/// Whether a call is the one by which somebody waits.
fn is_same_call(waiter: &Waiter, call: &Call) -> bool {
    let command = match waiter.reads {
        true => Command::L4,
        false => Command::Hi,
    };
    (waiter.user, waiter.file, waiter.isn) == (call.user, call.file, call.isn)
        && (command.code(), CommandOption::Wait.code()) == (call.command, call.option)
}

/// Number and cause of a response without a call.
pub fn response(number: u16) -> String {
    match Response::from_number(number) {
        Some(response) => response.to_string(),
        None => format!("{number}: there is no such response."),
    }
}

fn cause(table: &[u8], call: &Call, response: Response) -> String {
    let letters = String::from_utf8_lossy(&call.command);
    match (response, &call.command) {
        (Response::CommandUnknown, _) if is_known(call.command) => {
            format!("The option is none of {letters}'s.")
        }
        (Response::CommandUnknown, _) => "The command is unknown.".to_string(),
        (Response::BackedOut, b"OP" | b"CL") => response.explanation().to_string(),
        (Response::BackedOut, _) => {
            "The user's transaction took longer than his time limit and was backed out.".to_string()
        }
        (Response::RecordBuffer, b"ET") => "ET brings more than 64 bytes.".to_string(),
        (Response::RecordBuffer, b"RE") => {
            "The record buffer is shorter than the user's ET data.".to_string()
        }
        (Response::RecordBuffer, _) => {
            "The record buffer is shorter than the named fields.".to_string()
        }
        (Response::IsnInvalid, _) => isn_cause(table, call),
        (Response::HeldByAnother, _) if call.option == CommandOption::Wait.code() => {
            "Another user holds the ISN, and this one may hold no more: he does not wait."
                .to_string()
        }
        _ => response.explanation().to_string(),
    }
}

fn is_known(command: [u8; 2]) -> bool {
    Command::ALL.iter().any(|known| known.code() == command)
}

/// 113 has two rows.
fn isn_cause(table: &[u8], call: &Call) -> String {
    let max_isn = definition::read_table(table).and_then(|definition| {
        let place = definition.file_index(call.file)?;
        Some(definition.files[place].max_isn)
    });
    match (max_isn, &call.command) {
        (Some(max_isn), _) if call.isn == 0 || call.isn > max_isn => {
            format!("The ISN is not 1 to {max_isn}, the file's highest.")
        }
        (_, b"N2") => "There is a record at the ISN already.".to_string(),
        (_, b"L1") if call.option == b'C' => {
            "Ended transactions left no record at the ISN.".to_string()
        }
        _ => "There is no record at the ISN.".to_string(),
    }
}
