//! House call lists from a text notation: the bytes that `partycall` reads and the text that it must print. The README
//! has the notation.

use crate::house;
use crate::state::Call;
use call_lists::{number, ListedCall, Wrong};

#[derive(Clone, Debug, PartialEq, Eq)]
pub struct HouseList {
    pub name: String,
    pub input: Vec<u8>,
    pub output: String,
}

/// A list as far as it is read.
struct Reader {
    list: HouseList,
    /// The user of the call before.
    user: u8,
    /// Whether the input is bad already, so that nothing more is printed.
    bad: bool,
}

/// Reads the lists of a source; the error names the line.
pub fn read(text: &str) -> Result<Vec<HouseList>, String> {
    let mut lists: Vec<HouseList> = Vec::new();
    let mut reader: Option<Reader> = None;
    for item in call_lists::items(text) {
        let (place, key, value) = item.map_err(|bad| bad.to_string())?;
        if key == "list" {
            lists.extend(reader.take().map(|reader| reader.list));
            reader = Some(Reader::new(value));
            continue;
        }
        let read = match &mut reader {
            Some(reader) => reader.item(place, key, value),
            None => Err(Wrong::new("an item `list:` before any other", key)),
        };
        read.map_err(|wrong| wrong.at(place).to_string())?;
    }
    lists.extend(reader.map(|reader| reader.list));
    Ok(lists)
}

impl Reader {
    fn new(name: &str) -> Reader {
        Reader {
            list: HouseList {
                name: name.to_string(),
                input: Vec::new(),
                output: String::new(),
            },
            user: 1,
            bad: false,
        }
    }

    fn item(&mut self, line: usize, key: &str, value: &str) -> Result<(), Wrong> {
        match key {
            "words" => Ok(()),
            "table" => self.table(value),
            "call" => call_lists::numbered(value)?
                .iter()
                .try_for_each(|text| self.call(line, text)),
            "bad" => self.bad_call(line, value),
            _ => {
                let known = "one of the keys list, words, table, call or bad";
                Err(Wrong::new(known, key))
            }
        }
    }

    fn table(&mut self, value: &str) -> Result<(), Wrong> {
        if !self.list.input.is_empty() {
            return Err(Wrong::new("one table, before the calls", value));
        }
        self.list.input = call_lists::bytes(value)?;
        Ok(())
    }

    /// The bytes of a call and the line that it prints; a call after bad input prints none.
    fn call(&mut self, line: usize, text: &str) -> Result<(), Wrong> {
        let call = read_call(line, self.user, text)?;
        self.user = call.call.user;
        self.list.input.extend(bytes_of(&call)?);
        match (call.expected, self.bad) {
            (Some(expected), false) => self.print(&expected.to_string()),
            (None, true) => {}
            (_, false) => return Err(Wrong::new("an answer after ->", text)),
            (_, true) => return Err(Wrong::new("no answer after `bad:`", text)),
        }
        Ok(())
    }

    /// What makes the input bad: the call, with its changed bytes, or where none is named what stands before.
    fn bad_call(&mut self, line: usize, text: &str) -> Result<(), Wrong> {
        if self.bad {
            return Err(Wrong::new("`bad:` once in a list", text));
        }
        if !text.is_empty() {
            self.list.input.extend(bad_bytes(line, self.user, text)?);
        }
        self.bad = true;
        self.print("bad");
        Ok(())
    }

    fn print(&mut self, line: &str) {
        self.list.output += line;
        self.list.output.push('\n');
    }
}

fn read_call(line: usize, user: u8, text: &str) -> Result<ListedCall, Wrong> {
    call_lists::read_call(line, user, text).map_err(|bad| bad.wrong)
}

fn bytes_of(listed: &ListedCall) -> Result<Vec<u8>, Wrong> {
    let call = &listed.call;
    let expected = "a known command and buffers of at most 16 and 35 bytes";
    house::call_bytes(&Call::from(call), &call.format, &call.record)
        .ok_or_else(|| Wrong::new(expected, &listed.text))
}

/// A call's bytes with `kind=N`, `format-length=N` or `record-length=N` put in their place, or cut to `bytes=N`.
fn bad_bytes(line: usize, user: u8, text: &str) -> Result<Vec<u8>, Wrong> {
    let (changes, words): (Vec<&str>, Vec<&str>) = text
        .split_whitespace()
        .partition(|word| change(word).is_some());
    let call = read_call(line, user, &words.join(" "))?;
    let mut bytes = bytes_of(&call)?;
    for (key, value) in changes.into_iter().filter_map(change) {
        match key {
            "kind" => bytes[0] = number(value)?,
            "format-length" => bytes[house::FORMAT_LENGTH] = number(value)?,
            "record-length" => bytes[house::RECORD_LENGTH] = number(value)?,
            _ => bytes.truncate(number(value)?),
        }
    }
    Ok(bytes)
}

fn change(word: &str) -> Option<(&str, &str)> {
    word.split_once('=')
        .filter(|(key, _)| matches!(*key, "kind" | "format-length" | "record-length" | "bytes"))
}

/// The error says where the implementation prints something else.
pub fn check(list: &HouseList) -> Result<(), String> {
    let printed = house::run(&list.input);
    if printed == list.output {
        return Ok(());
    }
    let pairs = printed.lines().zip(list.output.lines());
    let same = pairs.take_while(|(line, expected)| line == expected);
    let place = same.count();
    let at = |text: &str| text.lines().nth(place).unwrap_or("nothing").to_string();
    Err(format!(
        "{}, line {} of the output: expected {}, printed {}",
        list.name,
        place + 1,
        at(&list.output),
        at(&printed)
    ))
}
