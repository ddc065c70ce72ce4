//! The program's arguments.

use std::ffi::OsString;
use std::fmt;
use std::fs;
use std::io::{self, Read};

pub const HELP: &str = "\
usage: calls [--check] [--explain] [--second] [FILE..]

Runs call lists on the proved nucleus and prints each call with its answer and
its record buffer. Without a FILE, or for -, it reads standard input. What is
printed is a call list too. second/README.md has the notation: the lines of
`lists`, and vector files.

  --check    print no calls; compare each answer with what stands after ->
             and stop at the first difference
  --explain  say in comment lines behind a call why it was refused, whom it
             waits for, and to whom it handed a hold over
  --second   run the second implementation instead of the proved nucleus
  --help     print this

Exit status: 0 all calls were made (and answered as expected, with --check);
1 an answer differs, or a set-up is refused; 2 the arguments, a file or a line
cannot be read.
";

#[derive(Debug, PartialEq, Eq)]
pub enum Wanted {
    Help,
    Run(Arguments),
}

#[derive(Debug, Default, PartialEq, Eq)]
pub struct Arguments {
    pub check: bool,
    pub explain: bool,
    pub second: bool,
    pub sources: Vec<Source>,
}

#[derive(Debug, PartialEq, Eq)]
pub enum Source {
    StandardInput,
    File(OsString),
}

/// The words after the program's name; the error says what was expected.
pub fn read(words: impl Iterator<Item = OsString>) -> Result<Wanted, String> {
    let mut arguments = Arguments::default();
    let mut only_files = false;
    for word in words {
        match word.to_str() {
            Some("-") => arguments.sources.push(Source::StandardInput),
            Some("--") if !only_files => only_files = true,
            Some("--help" | "-h") if !only_files => return Ok(Wanted::Help),
            Some("--check") if !only_files => arguments.check = true,
            Some("--explain") if !only_files => arguments.explain = true,
            Some("--second") if !only_files => arguments.second = true,
            Some(option) if option.starts_with('-') && !only_files => {
                return Err(format!(
                    "expected --check, --explain, --second, --help or a file, found {option}"
                ));
            }
            _ => arguments.sources.push(Source::File(word)),
        }
    }
    if arguments.sources.is_empty() {
        arguments.sources.push(Source::StandardInput);
    }
    Ok(Wanted::Run(arguments))
}

impl Source {
    pub fn read(&self) -> io::Result<Vec<u8>> {
        match self {
            Source::File(path) => fs::read(path),
            Source::StandardInput => {
                let mut text = Vec::new();
                io::stdin().read_to_end(&mut text)?;
                Ok(text)
            }
        }
    }
}

impl fmt::Display for Source {
    fn fmt(&self, formatter: &mut fmt::Formatter) -> fmt::Result {
        match self {
            Source::File(path) => write!(formatter, "{}", path.display()),
            Source::StandardInput => write!(formatter, "standard input"),
        }
    }
}
