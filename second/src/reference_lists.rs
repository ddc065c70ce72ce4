//! The examples of the Command Reference as house call lists. An example wants a fresh nucleus, and a list has one: so
//! several examples are joined to one list, each with files and users of its own, and its clocks after those before.
//! No answer shows a file, a user or a clock, so the answers are those of the vector file.

use crate::definition::{self, FIELD_ITEM, FILE_ITEM, MAX_FILES};
use crate::house;
use crate::state::MAX_USERS;
use crate::store;
use call_lists::{hex, Call, Expected, List};
use std::collections::BTreeMap;

/// A file number that no list defines, for one that an example does not define.
const NO_FILE: u8 = 99;

/// One list, as far as it is joined.
#[derive(Default)]
struct Joined {
    /// The items of the table, without the end.
    table: Vec<u8>,
    files: usize,
    users: usize,
    /// The greatest clock.
    clock: u32,
    calls: String,
}

/// The sources of the lists, by name: each example that fits is in the first list that has room for it.
pub fn sources(examples: &[List]) -> Vec<(String, String)> {
    let mut lists: Vec<Joined> = Vec::new();
    for example in examples.iter().filter(|example| fits(example)) {
        match lists.iter_mut().find(|list| list.has_room(example)) {
            Some(list) => list.add(example),
            None => {
                let mut list = Joined::default();
                list.add(example);
                lists.push(list);
            }
        }
    }
    let named = |(number, list): (usize, &Joined)| {
        let name = format!("command-reference-{number}");
        let source = list.source(&name);
        (name, source)
    };
    (1..).zip(&lists).map(named).collect()
}

/// Whether `partycall` can be given the example: its capacity, its store, and the lengths of its buffers.
pub fn fits(example: &List) -> bool {
    let calls_fit = example
        .calls
        .iter()
        .all(|listed| house_bytes(&listed.call).is_some());
    example.capacity == house::CAPACITY && calls_fit && store_size(&example.table).is_some()
}

fn house_bytes(call: &Call) -> Option<Vec<u8>> {
    house::call_bytes(&call.into(), &call.format, &call.record)
}

/// The size of a table's store, if it is valid and not too large.
fn store_size(table: &[u8]) -> Option<usize> {
    let size = store::store_size(&definition::read_table(table)?);
    (size <= house::STORE).then_some(size)
}

/// The items of a table, each with its kind, but for the end.
fn items(table: &[u8]) -> Vec<&[u8]> {
    let mut items = Vec::new();
    let mut rest = table;
    loop {
        let length = match rest {
            [FILE_ITEM, ..] => 4,
            [FIELD_ITEM, ..] => 6,
            _ => return items,
        };
        let (item, tail) = rest.split_at(length.min(rest.len()));
        items.push(item);
        rest = tail;
    }
}

/// The example's file numbers, and its users, in the order in which they come.
fn file_numbers(example: &List) -> Vec<u8> {
    let items = items(&example.table).into_iter();
    items
        .filter(|item| item[0] == FILE_ITEM)
        .map(|item| item[1])
        .collect()
}

fn users(example: &List) -> Vec<u8> {
    let mut users = Vec::new();
    for call in &example.calls {
        let is_user = (1..=MAX_USERS).contains(&usize::from(call.call.user));
        if is_user && !users.contains(&call.call.user) {
            users.push(call.call.user);
        }
    }
    users
}

/// Each number with the new one that it gets.
fn renumbered(numbers: &[u8], used: usize) -> BTreeMap<u8, u8> {
    let new = used as u8 + 1..;
    numbers.iter().copied().zip(new).collect()
}

impl Joined {
    fn has_room(&self, example: &List) -> bool {
        let mut table = self.table.clone();
        table.extend(self.renumbered_table(example));
        table.push(definition::END_ITEM);
        self.files + file_numbers(example).len() <= MAX_FILES
            && self.users + users(example).len() <= MAX_USERS
            && store_size(&table).is_some()
    }

    fn renumbered_table(&self, example: &List) -> Vec<u8> {
        let files = renumbered(&file_numbers(example), self.files);
        let mut table = Vec::new();
        for item in items(&example.table) {
            let at = table.len();
            table.extend(item);
            if item[0] == FILE_ITEM {
                table[at + 1] = files[&item[1]];
            }
        }
        table
    }

    fn add(&mut self, example: &List) {
        let files = renumbered(&file_numbers(example), self.files);
        let users = renumbered(&users(example), self.users);
        self.table.extend(self.renumbered_table(example));
        self.files += files.len();
        self.users += users.len();
        self.calls += &format!("#\n# {}\n", example.name);
        let before = self.clock;
        for listed in &example.calls {
            let mut call = listed.call.clone();
            call.user = *users.get(&call.user).unwrap_or(&call.user);
            call.file = *files.get(&call.file).unwrap_or(&NO_FILE);
            call.clock += before;
            self.clock = self.clock.max(call.clock);
            self.calls += &call_text(&call, listed.expected.as_ref());
        }
    }

    fn source(&self, name: &str) -> String {
        let mut table = String::new();
        for item in items(&self.table) {
            table += if item[0] == FILE_ITEM { "  " } else { " " };
            table += &hex(item);
        }
        let table = table.trim_start();
        format!("{HEAD}list: {name}\ntable: {table}  00\n{}", self.calls)
    }
}

const HEAD: &str = "# Written by `house_lists` from vectors/command-reference.txt: the examples named below, each with files and users of
# its own and its clocks after those before. The answers are the vector file's.
";

/// The line of a call, with its answer as the vector file has it.
fn call_text(call: &Call, expected: Option<&Expected>) -> String {
    let mut words = vec![String::from_utf8_lossy(&call.command).into_owned()];
    words.push(format!("user={}", call.user));
    if call.option != b' ' {
        words.push(format!("option={}", char::from(call.option)));
    }
    words.push(format!("file={}", call.file));
    let numbers = [
        ("isn", u32::from(call.isn)),
        ("limit", u32::from(call.limit)),
        ("clock", call.clock),
    ];
    for (key, number) in numbers.into_iter().filter(|(_, number)| *number > 0) {
        words.push(format!("{key}={number}"));
    }
    if !call.format.is_empty() {
        words.push(format!("format={}", String::from_utf8_lossy(&call.format)));
    }
    match &call.record[..] {
        [] => {}
        zeros if zeros.iter().all(|byte| *byte == 0) => {
            words.push(format!("length={}", zeros.len()))
        }
        record => words.push(format!("record={}", hex(record))),
    }
    let expected = expected.map(Expected::to_string).unwrap_or_default();
    format!("call: {} -> {expected}\n", words.join(" "))
}
