//! The items of vector files: `key: value`, one a line, and their calls.

use crate::lines::read_answer;
use crate::values::{bytes, number};
use crate::{BadLine, Call, Expected, ListedCall, Wrong};
use std::ops::Range;

/// An item of a text: its line, from 1, its key and its value.
pub type Item<'a> = (usize, &'a str, &'a str);

/// The greatest `length=N`, and how much text a range of ISNs may make: a short text must not cost much memory.
const GREATEST_LENGTH: usize = u16::MAX as usize;
const GREATEST_RANGE: usize = 1 << 20;

/// The lines that say something: without empty ones and comments.
pub(crate) fn lines(text: &[u8]) -> impl Iterator<Item = (usize, Result<&str, BadLine>)> {
    let lines = text.split(|byte| *byte == b'\n').zip(1..);
    lines
        .map(|(line, place)| {
            let line = std::str::from_utf8(line).map(str::trim);
            let bad = |_| Wrong::new("text in UTF-8", "other bytes").at(place);
            (place, line.map_err(bad))
        })
        .filter(|(_, line)| !matches!(line, Ok(line) if line.is_empty() || line.starts_with('#')))
}

/// The items of a text, one a line.
pub fn items(text: &str) -> impl Iterator<Item = Result<Item<'_>, BadLine>> {
    lines(text.as_bytes()).map(|(place, line)| {
        let (key, value) = item(line?).map_err(|wrong| wrong.at(place))?;
        Ok((place, key, value))
    })
}

pub(crate) fn item(line: &str) -> Result<(&str, &str), Wrong> {
    let (key, value) = line
        .split_once(':')
        .ok_or_else(|| Wrong::new("a key and a colon", line))?;
    Ok((key, value.trim()))
}

/// The part of a line before its word `->`, and what follows that, if anything does.
pub(crate) fn parted(text: &str) -> (&str, Option<&str>) {
    let Range { start, end } = arrow(text).unwrap_or(text.len()..text.len());
    let expected = text[end..].trim();
    (
        text[..start].trim(),
        (!expected.is_empty()).then_some(expected),
    )
}

/// Where the word `->` is.
fn arrow(text: &str) -> Option<Range<usize>> {
    let mut found = text.match_indices("->").map(|(start, _)| start..start + 2);
    let is_word = |range: &Range<usize>| {
        let before = text[..range.start].chars().next_back();
        let after = text[range.end..].chars().next();
        before.is_none_or(char::is_whitespace) && after.is_none_or(char::is_whitespace)
    };
    found.find(is_word)
}

/// `CMD [user=N] .. -> RESPONSE ISN QUANTITY SEQUENCE [HEX] [after=HEX]`; the user is that of the call before, unless
/// named.
pub fn read_call(line: usize, user: u8, text: &str) -> Result<ListedCall, BadLine> {
    read_call_text(line, user, text).map_err(|wrong| wrong.at(line))
}

fn read_call_text(line: usize, user: u8, text: &str) -> Result<ListedCall, Wrong> {
    let (arguments, expected) = parted(text);
    let mut words = arguments.split_whitespace();
    let command = words.next().unwrap_or_default();
    let mut call = Call {
        command: two_bytes(command)?,
        option: b' ',
        user,
        file: 1,
        isn: 0,
        limit: 0,
        clock: 0,
        format: Vec::new(),
        record: Vec::new(),
    };
    let mut seen = Vec::new();
    for word in words {
        let (key, value) = word
            .split_once('=')
            .ok_or_else(|| Wrong::new("an argument as key=value", word))?;
        read_argument(&mut call, key, value)?;
        if seen.contains(&place(key)) {
            return Err(Wrong::new("each argument once", word));
        }
        seen.push(place(key));
    }
    Ok(ListedCall {
        line,
        text: format!("call: {arguments}"),
        call,
        expected: expected.map(read_expected).transpose()?,
    })
}

/// The argument that a key fills; the record buffer has three keys.
fn place(key: &str) -> &str {
    match key {
        "text" | "length" => "record",
        _ => key,
    }
}

fn read_argument(call: &mut Call, key: &str, value: &str) -> Result<(), Wrong> {
    match key {
        "user" => number(value).map(|user| call.user = user),
        "option" => one_byte(value).map(|option| call.option = option),
        "file" => number(value).map(|file| call.file = file),
        "isn" => number(value).map(|isn| call.isn = isn),
        "limit" => number(value).map(|limit| call.limit = limit),
        "clock" => number(value).map(|clock| call.clock = clock),
        "record" => bytes(value).map(|record| call.record = record),
        "length" => length(value).map(|length| call.record = vec![0; length]),
        "format" => plain(value).map(|format| call.format = format),
        "text" => plain(value).map(|record| call.record = record),
        _ => {
            let known = "user, option, file, isn, limit, clock, format, record, text or length";
            return Err(Wrong::new(format!("one of the arguments {known}"), key));
        }
    }
    .map_err(|wrong| wrong.under(key))
}

/// The letters themselves.
fn plain(text: &str) -> Result<Vec<u8>, Wrong> {
    Ok(text.as_bytes().to_vec())
}

fn length(text: &str) -> Result<usize, Wrong> {
    let expected = || Wrong::new(format!("a number from 0 to {GREATEST_LENGTH}"), text);
    match number(text) {
        Ok(length) if length <= GREATEST_LENGTH => Ok(length),
        _ => Err(expected()),
    }
}

fn two_bytes(text: &str) -> Result<[u8; 2], Wrong> {
    text.as_bytes()
        .try_into()
        .map_err(|_| Wrong::new("a command of two letters", text))
}

fn one_byte(text: &str) -> Result<u8, Wrong> {
    match text.as_bytes() {
        [byte] => Ok(*byte),
        _ => Err(Wrong::new("one letter", text)),
    }
}

/// Without HEX nothing was written.
fn read_expected(text: &str) -> Result<Expected, Wrong> {
    let words = &mut text.split_whitespace().peekable();
    let answer = read_answer(words)?;
    let is_after = |word: &&str| word.starts_with("after=");
    let written = words.next_if(|word| !is_after(word)).map(bytes);
    let after = words
        .next_if(is_after)
        .map(|word| bytes(&word["after=".len()..]));
    if let Some(word) = words.next() {
        return Err(Wrong::new("nothing after the bytes of an answer", word));
    }
    Ok(Expected {
        answer,
        written: Some(written.transpose()?.unwrap_or_default()),
        after: after.transpose().map_err(|wrong| wrong.under("after"))?,
    })
}

/// A call with `isn=FIRST..LAST` is one call for each ISN; `ISN` in its answer stands for the ISN.
pub fn numbered(text: &str) -> Result<Vec<String>, Wrong> {
    let (arguments, expected) = parted(text);
    let words: Vec<&str> = arguments.split_whitespace().collect();
    let isn = words.iter().find_map(|word| word.strip_prefix("isn="));
    let Some((first, last)) = isn.and_then(|isn| isn.split_once("..")) else {
        return Ok(vec![text.to_string()]);
    };
    let under = |wrong: Wrong| wrong.under("isn");
    let first: u16 = number(first).map_err(under)?;
    let last: u16 = number(last).map_err(under)?;
    let isns = first..=last;
    if isns.len() * text.len() > GREATEST_RANGE {
        let expected = format!("a range of ISNs that makes at most {GREATEST_RANGE} characters");
        return Err(Wrong::new(expected, &format!("{first}..{last}")));
    }
    Ok(isns.map(|isn| with_isn(&words, expected, isn)).collect())
}

/// The call of one ISN of a range.
fn with_isn(arguments: &[&str], expected: Option<&str>, isn: u16) -> String {
    let argument = |word: &&str| match word.strip_prefix("isn=") {
        Some(value) if value.contains("..") => format!("isn={isn}"),
        _ => word.to_string(),
    };
    let answer = |word: &str| match word {
        "ISN" => isn.to_string(),
        _ => word.to_string(),
    };
    let mut words: Vec<String> = arguments.iter().map(argument).collect();
    words.push("->".to_string());
    words.extend(expected.unwrap_or_default().split_whitespace().map(answer));
    words.join(" ")
}
