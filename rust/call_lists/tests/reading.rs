//! What the reader takes, in both notations, and what it says of bad lines.

use call_lists::{hex, read, run_call, Answer, Call, Lent, Nucleus};

const LINES: &str = "# A comment

list seed=7 table=0101000302414101415500 capacity=2 store=6 queue=2 images=2 fill=A5
call N1 command=4E31 option=20 user=1 file=1 isn=0 limit=0 clock=5 format=41412E record=31 -> 0 1 0 0 after=31
call -- command=00FF option=00 user=255 file=0 isn=65535 limit=65535 clock=4294967295 format= record= ->
call L1 command=4C31 option=49 user=2 file=1 isn=1 limit=3 clock=0 format=41412E record=000000
";

#[test]
fn reads_the_lines_of_lists() {
    let lists = read(LINES).expect("good");
    let [list] = &lists[..] else {
        panic!("{lists:?}");
    };
    assert_eq!((list.line, &list.name[..], list.capacity), (3, "seed=7", 2));
    let lent = Lent {
        store: 6,
        queue: 2,
        images: 2,
        fill: 0xA5,
    };
    assert_eq!(list.lent, Some(lent));
    assert_eq!(hex(&list.table), "0101000302414101415500");
    let [n1, unknown, l1] = &list.calls[..] else {
        panic!("{list:?}");
    };
    let expected = n1.expected.as_ref().expect("an answer");
    assert_eq!(expected.to_string(), "0 1 0 0 after=31");
    assert_eq!((n1.line, n1.call.clock, l1.line), (4, 5, 6));
    assert_eq!(unknown.call.command, [0, 0xFF]);
    assert_eq!((unknown.call.user, unknown.call.clock), (255, u32::MAX));
    assert_eq!((&unknown.expected, &l1.expected), (&None, &None));
    assert_eq!((l1.call.option, l1.call.limit), (b'I', 3));
    assert_eq!(l1.call.format, b"AA.");
    assert_eq!(l1.call.record, [0; 3]);
    assert_eq!(
        list.head(),
        LINES.lines().nth(2).expect("head").to_string() + "\n"
    );
}

const ITEMS: &str = "example: one
section: N1
words: adds
words: a record
table: 01010003 024141 01 41 55 00
capacity: 2
call: N1 format=AA. text=x -> 0 1 0 0
call: L1 user=2 isn=1 format=AA. length=3 -> 0 1 1 0 78 after=780000
call: HI isn=1 clock=5 limit=6 file=3 option=X ->
call: HI isn=2..4 -> 0 ISN 0 0
list: two
call: RE record=0aFf
";

#[test]
fn reads_the_items_of_vector_files() {
    let lists = read(ITEMS).expect("good");
    let [one, two] = &lists[..] else {
        panic!("{lists:?}");
    };
    assert_eq!(
        (&one.name[..], &one.section[..], one.line),
        ("one", "N1", 1)
    );
    assert_eq!(one.words, ["adds", "a record"]);
    assert_eq!((one.table.len(), one.capacity, one.lent), (11, 2, None));
    assert_eq!((&two.name[..], two.line, two.capacity), ("two", 11, 64));
    let [n1, l1, hi, held @ ..] = &one.calls[..] else {
        panic!("{one:?}");
    };
    assert_eq!((n1.call.user, n1.call.option, n1.call.file), (1, b' ', 1));
    assert_eq!(n1.call.record, b"x");
    assert_eq!((l1.call.user, &l1.call.record[..]), (2, &[0, 0, 0][..]));
    let expected = l1.expected.as_ref().expect("an answer");
    assert_eq!(expected.to_string(), "0 1 1 0 78 after=780000");
    assert_eq!((hi.line, hi.call.user, hi.call.file), (9, 2, 3));
    assert_eq!((hi.call.clock, hi.call.limit, hi.call.option), (5, 6, b'X'));
    let found: Vec<String> = held
        .iter()
        .map(|call| format!("{} -> {}", call.text, call.expected.as_ref().expect("one")))
        .collect();
    assert_eq!(
        found,
        [
            "call: HI isn=2 -> 0 2 0 0",
            "call: HI isn=3 -> 0 3 0 0",
            "call: HI isn=4 -> 0 4 0 0"
        ]
    );
    assert_eq!(two.calls[0].call.record, [0x0A, 0xFF]);
    assert_eq!(two.calls[0].call.user, 1);
}

#[test]
fn a_head_reads_as_what_it_was_made_of() {
    for text in [LINES, ITEMS] {
        for mut list in read(text).expect("good") {
            list.calls.clear();
            let again = &read(list.head()).expect("good")[0];
            assert_eq!(list.head(), again.head());
            assert_eq!((&list.table, &list.words), (&again.table, &again.words));
        }
    }
}

/// A line, and what is said of it.
const BAD: [(&str, &str); 34] = [
    ("example: a\ncall: HI\ncapacity: 3", "a call, or `example:` or `list:` for another nucleus, found capacity: 3"),
    ("call: HI", "a line `list ..` or an item `example:` or `list:` before any other, found HI"),
    ("table: 00", "a line `list ..` or an item `example:` or `list:` before any other, found table: 00"),
    ("nonsense", "a key and a colon, found nonsense"),
    ("other: b", "one of the keys example, list, section, words, table, capacity or call, found other"),
    ("example: a\ntable: 0", "hexadecimal digits, two a byte, found 0"),
    ("example: a\ntable: 0G", "hexadecimal digits, two a byte, found 0G"),
    ("example: a\ntable: +1", "hexadecimal digits, two a byte, found +1"),
    ("example: a\ncapacity: x", "a number from 0 to 4294967295, found x"),
    ("example: a\ncapacity: +1", "a number from 0 to 4294967295, found +1"),
    ("example: a\ncall:", "a command of two letters, found nothing"),
    ("example: a\ncall: HIX -> 0 0 0 0", "a command of two letters, found HIX"),
    ("example: a\ncall: HI isn=70000", "isn= with a number from 0 to 65535, found 70000"),
    ("example: a\ncall: HI isn=1..x", "isn= with a number from 0 to 65535, found x"),
    ("example: a\ncall: HI user=256", "user= with a number from 0 to 255, found 256"),
    ("example: a\ncall: HI isn", "an argument as key=value, found isn"),
    ("example: a\ncall: HI isn=1 isn=1", "each argument once, found isn=1"),
    ("example: a\ncall: ET text=a length=1", "each argument once, found length=1"),
    ("example: a\ncall: ET length=65536", "length= with a number from 0 to 65535, found 65536"),
    ("example: a\ncall: HI option=AB", "option= with one letter, found AB"),
    ("example: a\ncall: HI record=1", "record= with hexadecimal digits, two a byte, found 1"),
    ("example: a\ncall: HI colour=1", "one of the arguments user, option, file, isn, limit, clock, format, record, text or length, found colour"),
    ("example: a\ncall: HI -> 0", "a number from 0 to 65535 as the ISN after ->, found nothing"),
    ("example: a\ncall: HI -> 0 1 x 0", "a number from 0 to 18446744073709551615 as the quantity after ->, found x"),
    ("example: a\ncall: HI -> 0 1 0 0 3", "hexadecimal digits, two a byte, found 3"),
    ("example: a\ncall: HI -> 0 1 0 0 30 31", "nothing after the bytes of an answer, found 31"),
    ("list seed=1", "table=, found nothing"),
    ("list table=00 seed=1", "seed=, found table=00"),
    ("list seed=1 table=00 capacity=1 store=67108865 queue=1 images=1 fill=00", "store= with a length of at most 67108864, found 67108865"),
    ("list seed=1 table=00 capacity=1 store=1 queue=1 images=1 fill=0000", "fill= with two hexadecimal digits, found 0000"),
    ("list seed=1 table=00 capacity=1 store=1 queue=1 images=1 fill=00 x", "nothing after fill=, found x"),
    ("list seed=1 table=00 capacity=1 store=1 queue=1 images=1 fill=00\ntable: 00", "a call, or `example:` or `list:` for another nucleus, found table: 00"),
    ("list seed=1 table=00 capacity=1 store=1 queue=1 images=1 fill=00\ncall HI command=4E31 option=20 user=1 file=1 isn=0 limit=0 clock=0 format= record=", "-- or the letters of command= as the call's name, found HI"),
    ("list seed=1 table=00 capacity=1 store=1 queue=1 images=1 fill=00\ncall N1 command=4E31 option=20 user=1 file=1 isn=0 limit=0 clock=0 format= record= -> 0 0 0 0", "after=, found nothing"),
];

#[test]
fn says_what_was_expected_and_where() {
    for (text, said) in BAD {
        let line = text.lines().count() + 2;
        let bad = read(format!("# A comment\n\n{text}\n")).expect_err(text);
        assert_eq!(bad.to_string(), format!("line {line}: expected {said}"));
    }
    let bad = read(b"example: a\nwords: \xFF").expect_err("no text");
    assert_eq!(
        bad.to_string(),
        "line 2: expected text in UTF-8, found other bytes"
    );
}

#[test]
fn a_short_text_costs_little_memory() {
    let buffers = "call: ET length=65535\n".repeat(1100);
    let bad = read(format!("example: a\n{buffers}")).expect_err("too much");
    assert!(bad.to_string().contains("shorter record buffers"), "{bad}");
    let ranges = "call: HI isn=0..9999 length=65535\n";
    let bad = read(format!("example: a\n{ranges}")).expect_err("too much");
    assert!(bad.to_string().contains("fewer ranges"), "{bad}");
    let long = format!(
        "example: a\ncall: HI isn=0..65535 format={}",
        "A".repeat(99)
    );
    let bad = read(long).expect_err("too much");
    assert!(bad.to_string().contains("a range of ISNs"), "{bad}");
}

/// No input makes the reader panic: lines of both notations, cut, joined and with bytes changed.
#[test]
fn any_bytes_are_read_or_refused() {
    let mut seed = 1u64;
    let mut below = |bound: usize| {
        seed = seed
            .wrapping_mul(6364136223846793005)
            .wrapping_add(1442695040888963407);
        (seed >> 33) as usize % bound.max(1)
    };
    let mut good = 0;
    for _ in 0..20_000 {
        let mut text = [LINES, ITEMS][below(2)].as_bytes().to_vec();
        for _ in 0..=below(4) {
            let place = below(text.len());
            match below(6) {
                0 => text.truncate(place),
                1 => drop(text.splice(place..place, ITEMS.bytes().skip(below(300)).take(20))),
                2 => drop(text.drain(place..(place + below(30)).min(text.len()))),
                3 if place < text.len() => text[place] = below(256) as u8,
                4 => text.insert(place, b" \n=:->,.19"[below(10)]),
                _ => {}
            }
        }
        good += usize::from(read(&text).is_ok());
    }
    assert!((2_000..19_000).contains(&good), "{good} texts are good");
}

/// Answers each call with the same, and writes one byte.
struct Same(Answer);

impl Nucleus for Same {
    fn answer(&mut self, _: &Call, record: &mut [u8]) -> Answer {
        record.iter_mut().take(1).for_each(|byte| *byte = 0x78);
        self.0
    }
}

#[test]
fn compares_what_the_line_says() {
    let lists = read(ITEMS).expect("good");
    let [n1, l1, hi, ..] = &lists[0].calls[..] else {
        panic!("{lists:?}");
    };
    let good = Answer {
        response: 0,
        isn: 1,
        quantity: 1,
        sequence: 0,
    };
    let check = |call: &call_lists::ListedCall, answer| {
        call.check(&run_call(&mut Same(answer), &call.call))
    };
    assert_eq!(check(l1, good), Ok(()));
    assert_eq!(check(hi, good), Ok(()), "nothing is expected");
    let differs = check(n1, good).expect_err("quantity");
    assert_eq!(differs, "expected 0 1 0 0, found 0 1 1 0");
    let wrong = Answer {
        quantity: 9,
        ..good
    };
    let differs = check(l1, wrong).expect_err("quantity past the buffer");
    assert_eq!(
        differs,
        "expected 0 1 1 0 78 after=780000, found 0 1 9 0 780000 after=780000"
    );
}
