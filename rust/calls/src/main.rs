//! Program `calls`: runs call lists and prints each call with its answer, or compares the answers.

mod arguments;
mod explain;
mod implementation;
mod run;

use arguments::{Arguments, Wanted};
use std::io::{self, BufWriter, Write};
use std::process::ExitCode;

/// Why the program ends early.
enum Failure {
    /// An answer is not the expected one, or a set-up is refused: status 1.
    Differs(String),
    /// Arguments, a file or a line cannot be read: status 2.
    Unreadable(String),
    /// Nobody reads the output any more, which is no fault.
    OutputClosed,
}

impl From<io::Error> for Failure {
    fn from(error: io::Error) -> Failure {
        match error.kind() {
            io::ErrorKind::BrokenPipe => Failure::OutputClosed,
            _ => Failure::Unreadable(format!("standard output: {error}")),
        }
    }
}

fn main() -> ExitCode {
    let mut output = BufWriter::new(io::stdout().lock());
    let done = work(&mut output).and_then(|()| Ok(output.flush()?));
    let (status, message) = match done {
        Ok(()) | Err(Failure::OutputClosed) => return ExitCode::SUCCESS,
        Err(Failure::Differs(message)) => (1, message),
        Err(Failure::Unreadable(message)) => (2, message),
    };
    // What was printed before the failure is of use; the failure itself has its own stream.
    let _ = output.flush();
    eprintln!("calls: {message}");
    ExitCode::from(status)
}

fn work(output: &mut impl Write) -> Result<(), Failure> {
    let words = std::env::args_os().skip(1);
    match arguments::read(words).map_err(Failure::Unreadable)? {
        Wanted::Help => Ok(write!(output, "{}", arguments::HELP)?),
        Wanted::Run(arguments) => run_all(&arguments, output),
    }
}

fn run_all(arguments: &Arguments, output: &mut impl Write) -> Result<(), Failure> {
    let mut counts = run::Counts::default();
    for source in &arguments.sources {
        if arguments.sources.len() > 1 && !arguments.check {
            writeln!(output, "# {source}")?;
        }
        let text = source
            .read()
            .map_err(|error| Failure::Unreadable(format!("{source}: {error}")))?;
        let lists = call_lists::read(text)
            .map_err(|bad| Failure::Unreadable(format!("{source}, {bad}")))?;
        for list in &lists {
            run::run_list(arguments, list, output, &mut counts).map_err(
                |failure| match failure {
                    Failure::Differs(message) => Failure::Differs(format!("{source}, {message}")),
                    other => other,
                },
            )?;
        }
    }
    match arguments.check {
        true => Ok(writeln!(output, "{counts}")?),
        false => Ok(()),
    }
}
