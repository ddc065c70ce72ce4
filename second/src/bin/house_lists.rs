//! Writes the house call lists: for each list of a source in `lists/`, its input and, with `.out` behind its name, the
//! output that it must give. The sources of the Command Reference's lists are written first, from its vector file.

use second::arguments;
use second::{house_lists, reference_lists, vectors};
use std::fs;
use std::path::{Path, PathBuf};
use std::process::ExitCode;

const USAGE: &str = "usage: house_lists DIRECTORY, where lists/ and vectors/ are";

fn main() -> ExitCode {
    let arguments: Vec<String> = std::env::args().skip(1).collect();
    arguments::exit_code(match &arguments[..] {
        [directory] => write_all(Path::new(directory)),
        _ => Err(USAGE.to_string()),
    })
}

fn write_all(directory: &Path) -> Result<(), String> {
    let lists = directory.join("lists");
    let examples = vectors::read(&text_of(&directory.join("vectors/command-reference.txt"))?)?;
    for (name, source) in reference_lists::sources(&examples) {
        write(&lists.join(name + ".txt"), source.as_bytes())?;
    }
    for source in sources(&lists)? {
        let at = |error: String| format!("{}: {error}", source.display());
        for list in house_lists::read(&text_of(&source)?).map_err(at)? {
            house_lists::check(&list).map_err(at)?;
            write(&lists.join(&list.name), &list.input)?;
            write(&lists.join(list.name + ".out"), list.output.as_bytes())?;
        }
    }
    Ok(())
}

/// The sources of a directory, by name.
fn sources(lists: &Path) -> Result<Vec<PathBuf>, String> {
    let entries = fs::read_dir(lists).map_err(|error| error.to_string())?;
    let mut sources: Vec<PathBuf> = entries
        .filter_map(|entry| Some(entry.ok()?.path()))
        .filter(|path| path.extension().is_some_and(|extension| extension == "txt"))
        .collect();
    sources.sort();
    Ok(sources)
}

fn text_of(path: &Path) -> Result<String, String> {
    fs::read_to_string(path).map_err(|error| format!("{}: {error}", path.display()))
}

fn write(path: &Path, content: &[u8]) -> Result<(), String> {
    fs::write(path, content).map_err(|error| format!("{}: {error}", path.display()))
}
