//! A whole text: its lists, each with its calls.

use crate::items::{item, lines, numbered, read_call};
use crate::lines as list_lines;
use crate::values::{bytes, number};
use crate::{BadLine, List, ListedCall, Wrong};

/// The capacity of an example that names none.
const CAPACITY: u32 = 64;

/// How many bytes `length=` and ranges of ISNs may add to what a text has: a short text must not cost much memory.
const GREATEST_GROWTH: usize = 1 << 26;

/// The lists of a text, in order.
pub fn read(text: impl AsRef<[u8]>) -> Result<Vec<List>, BadLine> {
    let mut reader = Reader::default();
    for (place, line) in lines(text.as_ref()) {
        let line = line?;
        reader
            .read_line(place, line)
            .map_err(|wrong| wrong.at(place))?;
    }
    Ok(reader.lists)
}

#[derive(Default)]
struct Reader {
    lists: Vec<List>,
    growth: usize,
}

impl Reader {
    fn read_line(&mut self, place: usize, line: &str) -> Result<(), Wrong> {
        match line.split_once(char::is_whitespace) {
            Some(("list", rest)) => {
                self.lists.push(list_lines::read_list(place, rest)?);
                Ok(())
            }
            Some(("call", rest)) => {
                let call = list_lines::read_call(place, rest)?;
                self.list(line)?.calls.push(call);
                Ok(())
            }
            _ => self.read_item(place, line),
        }
    }

    /// The list that a line belongs to.
    fn list(&mut self, line: &str) -> Result<&mut List, Wrong> {
        let expected = "a line `list ..` or an item `example:` or `list:` before any other";
        self.lists
            .last_mut()
            .ok_or_else(|| Wrong::new(expected, line))
    }

    fn read_item(&mut self, place: usize, line: &str) -> Result<(), Wrong> {
        let (key, value) = item(line)?;
        match key {
            "example" | "list" => {
                self.lists.push(new_example(place, value));
                Ok(())
            }
            "call" => self.read_calls(place, value),
            "section" | "words" | "table" | "capacity" => {
                let list = self.list(line)?;
                if list.lent.is_some() || !list.calls.is_empty() {
                    let expected = "a call, or `example:` or `list:` for another nucleus";
                    return Err(Wrong::new(expected, line));
                }
                read_head(list, key, value)
            }
            _ => {
                let known = "example, list, section, words, table, capacity or call";
                Err(Wrong::new(format!("one of the keys {known}"), key))
            }
        }
    }

    fn read_calls(&mut self, place: usize, value: &str) -> Result<(), Wrong> {
        let texts = numbered(value)?;
        for text in &texts {
            let before = self.list(value)?.calls.last();
            let user = before.map_or(1, |call| call.call.user);
            let call = read_call(place, user, text).map_err(|bad| bad.wrong)?;
            self.growth += call.call.record.len().saturating_sub(value.len());
            if texts.len() > 1 {
                self.growth += size_of::<ListedCall>() + text.len();
            }
            if self.growth > GREATEST_GROWTH {
                let expected = "shorter record buffers by length=, or fewer ranges of ISNs";
                return Err(Wrong::new(expected, value));
            }
            self.list(value)?.calls.push(call);
        }
        Ok(())
    }
}

fn new_example(line: usize, name: &str) -> List {
    List {
        line,
        name: name.to_string(),
        capacity: CAPACITY,
        ..List::default()
    }
}

/// An item of an example but for its calls.
fn read_head(list: &mut List, key: &str, value: &str) -> Result<(), Wrong> {
    match key {
        "section" => list.section = value.to_string(),
        "words" => list.words.push(value.to_string()),
        "table" => list.table = bytes(value)?,
        _ => list.capacity = number(value)?,
    }
    Ok(())
}

impl List {
    /// The lines that set the list up, in the notation that it has.
    pub fn head(&self) -> String {
        let List {
            name,
            section,
            capacity,
            ..
        } = self;
        let table = crate::hex(&self.table);
        if let Some(lent) = self.lent {
            return format!(
                "list {name} table={table} capacity={capacity} store={} queue={} images={} fill={:02X}\n",
                lent.store, lent.queue, lent.images, lent.fill
            );
        }
        let mut head = format!("example: {name}\n");
        if !section.is_empty() {
            head += &format!("section: {section}\n");
        }
        for words in &self.words {
            head += &format!("words: {words}\n");
        }
        head + &format!("table: {table}\ncapacity: {capacity}\n")
    }
}
