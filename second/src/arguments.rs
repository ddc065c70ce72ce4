//! What the programs do with their arguments.

use std::process::ExitCode;

pub fn numbers(first: &str, second: &str) -> Option<(u64, u64)> {
    Some((first.parse().ok()?, second.parse().ok()?))
}

/// Prints the error, if any.
pub fn exit_code(done: Result<(), String>) -> ExitCode {
    match done {
        Ok(()) => ExitCode::SUCCESS,
        Err(error) => {
            eprintln!("{error}");
            ExitCode::FAILURE
        }
    }
}
