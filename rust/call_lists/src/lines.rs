//! The lines of the program `lists`: `list key=value ..` and `call NAME key=value .. -> answer after=HEX`.

use crate::items;
use crate::values::{byte, bytes, number};
use crate::{Answer, Call, Expected, Lent, List, ListedCall, Wrong};

const LIST: [&str; 7] = [
    "seed", "table", "capacity", "store", "queue", "images", "fill",
];
const CALL: [&str; 9] = [
    "command", "option", "user", "file", "isn", "limit", "clock", "format", "record",
];

/// No table needs more than the greatest of these; longer buffers would only cost memory.
const GREATEST_STORE: usize = 1 << 26;
const GREATEST_QUEUE: usize = 1 << 16;
const GREATEST_IMAGES: usize = 1 << 20;

/// The values of a line's words, which have these keys in this order.
fn values<'a, const N: usize>(
    words: &mut impl Iterator<Item = &'a str>,
    keys: [&str; N],
) -> Result<[&'a str; N], Wrong> {
    let mut values = [""; N];
    for (value, key) in values.iter_mut().zip(keys) {
        let word = words.next().unwrap_or_default();
        *value = word
            .strip_prefix(key)
            .and_then(|rest| rest.strip_prefix('='))
            .ok_or_else(|| Wrong::new(format!("{key}="), word))?;
    }
    Ok(values)
}

/// No word is left.
fn ends<'a>(words: &mut impl Iterator<Item = &'a str>, after: &str) -> Result<(), Wrong> {
    match words.next() {
        Some(word) => Err(Wrong::new(format!("nothing after {after}"), word)),
        None => Ok(()),
    }
}

fn length(text: &str, greatest: usize) -> Result<usize, Wrong> {
    match number(text)? {
        length if length <= greatest => Ok(length),
        _ => Err(Wrong::new(format!("a length of at most {greatest}"), text)),
    }
}

/// What follows `list`.
pub(crate) fn read_list(line: usize, text: &str) -> Result<List, Wrong> {
    let words = &mut text.split_whitespace();
    let [seed, table, capacity, store, queue, images, fill] = values(words, LIST)?;
    ends(words, "fill=")?;
    let under = |key| move |wrong: Wrong| wrong.under(key);
    let seed: u64 = number(seed).map_err(under("seed"))?;
    Ok(List {
        line,
        name: format!("seed={seed}"),
        table: bytes(table).map_err(under("table"))?,
        capacity: number(capacity).map_err(under("capacity"))?,
        lent: Some(Lent {
            store: length(store, GREATEST_STORE).map_err(under("store"))?,
            queue: length(queue, GREATEST_QUEUE).map_err(under("queue"))?,
            images: length(images, GREATEST_IMAGES).map_err(under("images"))?,
            fill: byte(fill).map_err(under("fill"))?,
        }),
        ..List::default()
    })
}

/// What follows `call`.
pub(crate) fn read_call(line: usize, text: &str) -> Result<ListedCall, Wrong> {
    let (arguments, expected) = items::parted(text);
    let words = &mut arguments.split_whitespace();
    let name = words.next().unwrap_or_default();
    let call = arguments_of(words)?;
    ends(words, "record= but ->")?;
    if name != "--" && name.as_bytes() != call.command {
        let expected = "-- or the letters of command= as the call's name";
        return Err(Wrong::new(expected, name));
    }
    Ok(ListedCall {
        line,
        text: format!("call {}", arguments.trim()),
        call,
        expected: expected.map(read_expected).transpose()?,
    })
}

fn arguments_of<'a>(words: &mut impl Iterator<Item = &'a str>) -> Result<Call, Wrong> {
    let [command, option, user, file, isn, limit, clock, format, record] = values(words, CALL)?;
    let under = |key| move |wrong: Wrong| wrong.under(key);
    let two = || Wrong::new("command= with four hexadecimal digits", command);
    Ok(Call {
        command: bytes(command)
            .ok()
            .and_then(|bytes| bytes.try_into().ok())
            .ok_or_else(two)?,
        option: byte(option).map_err(under("option"))?,
        user: number(user).map_err(under("user"))?,
        file: number(file).map_err(under("file"))?,
        isn: number(isn).map_err(under("isn"))?,
        limit: number(limit).map_err(under("limit"))?,
        clock: number(clock).map_err(under("clock"))?,
        format: bytes(format).map_err(under("format"))?,
        record: bytes(record).map_err(under("record"))?,
    })
}

/// `RESPONSE ISN QUANTITY SEQUENCE after=HEX`.
fn read_expected(text: &str) -> Result<Expected, Wrong> {
    let words = &mut text.split_whitespace();
    let answer = read_answer(words)?;
    let [after] = values(words, ["after"])?;
    ends(words, "after=")?;
    Ok(Expected {
        answer,
        written: None,
        after: Some(bytes(after).map_err(|wrong| wrong.under("after"))?),
    })
}

/// `RESPONSE ISN QUANTITY SEQUENCE`.
pub(crate) fn read_answer<'a>(words: &mut impl Iterator<Item = &'a str>) -> Result<Answer, Wrong> {
    fn next<T: TryFrom<u64>>(word: Option<&str>, what: &str) -> Result<T, Wrong> {
        number(word.unwrap_or_default()).map_err(|wrong| Wrong {
            expected: format!("{} as the {what} after ->", wrong.expected),
            ..wrong
        })
    }
    Ok(Answer {
        response: next(words.next(), "response")?,
        isn: next(words.next(), "ISN")?,
        quantity: next(words.next(), "quantity")?,
        sequence: next(words.next(), "sequence")?,
    })
}
