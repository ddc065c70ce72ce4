//! include/towungbe.h says what the crate says: the layout of each type and the number of each response.

use std::fmt::Write;
use std::mem::{offset_of, size_of};
use std::path::{Path, PathBuf};
use std::process::Command;
use towungbe::raw::{
    self, Block, Entry, EtData, Field, File, Place, State, Transaction, User, WaitQueue, Waiter,
};
use towungbe::Response;

/// Lines `type size` and `type.field offset` of Rust's types, and a C program's statements that print the header's.
macro_rules! layout {
    ($($name:literal $type:ident: $($field:ident)*;)*) => {{
        let mut lines = String::new();
        let mut statements = String::new();
        $(
            writeln!(lines, "{} {}", $name, size_of::<$type>()).expect("text");
            writeln!(statements, "printf(\"{0} %zu\\n\", sizeof({0}));", $name).expect("text");
            $(
                let field = stringify!($field);
                writeln!(lines, "{}.{field} {}", $name, offset_of!($type, $field)).expect("text");
                writeln!(statements, "printf(\"{0}.{field} %zu\\n\", offsetof({0}, {field}));", $name)
                    .expect("text");
            )*
        )*
        (lines, statements)
    }};
}

fn header() -> PathBuf {
    Path::new(env!("CARGO_MANIFEST_DIR")).join("../../include/towungbe.h")
}

/// What a C program of this name with these statements prints.
fn printed(name: &str, statements: &str) -> String {
    let directory = Path::new(env!("CARGO_TARGET_TMPDIR"));
    let (source, program) = (directory.join(format!("{name}.c")), directory.join(name));
    let header = header();
    let header = header.display();
    let text = format!(
        "#include \"{header}\"\n#include <stdio.h>\nint main(void)\n{{\n{statements}return 0;\n}}\n"
    );
    std::fs::write(&source, text).expect("write");
    let compiled = Command::new("cc")
        .arg("-Wall")
        .arg("-Werror")
        .arg(&source)
        .arg("-o")
        .arg(&program)
        .status();
    assert!(compiled.expect("cc").success());
    let output = Command::new(&program).output().expect("run");
    String::from_utf8(output.stdout).expect("text")
}

#[test]
fn the_types_have_one_layout() {
    let (lines, statements) = layout! {
        "towungbe_entry" Entry: user file isn changed existed;
        "towungbe_field" Field: first second length format option;
        "towungbe_file" File: number count max_isn fields;
        "towungbe_transaction" Transaction: begun active ready;
        "towungbe_user" User: sequence transaction hold_limit time_limit session access_only overdue;
        "towungbe_et_data" EtData: length bytes;
        "towungbe_wait_queue" WaitQueue: places waiting;
        "towungbe_state" State: count files clock users et_data last_assigned entries wait_queue;
        "towungbe_block" Block: command option user file isn limit clock response answered_isn sequence quantity;
        "towungbe_place" Place: start length imaged;
    };
    assert_eq!(printed("layout", &statements), lines);
}

/// The header's function and the crate's take a place apart alike.
#[test]
fn a_waiter_is_the_same() {
    let places = [0, 0x1_C3D4_B2A1, 0xC3D4_B2A1, u64::MAX, !(1 << 32)];
    let mut statements = "static towungbe_state state;\n".to_string();
    let mut lines = String::new();
    for place in places {
        let Waiter {
            user,
            file,
            isn,
            reads,
        } = Waiter::from(place);
        writeln!(lines, "{user} {file} {isn} {}", u8::from(reads)).expect("text");
        statements += &format!(
            "state.wait_queue.places[31] = {place}u;
             {{ towungbe_waiter w = towungbe_waiter_at(&state, 31);
             printf(\"%u %u %u %d\\n\", w.user, w.file, w.isn, w.reads); }}\n"
        );
    }
    assert_eq!(printed("waiter", &statements), lines);
}

#[test]
fn the_limits_are_the_same() {
    let names = ["USERS", "FILES", "FIELDS", "ET_DATA", "MAX_CAPACITY"];
    let statements: String = names
        .iter()
        .map(|name| format!("printf(\"%d\\n\", TOWUNGBE_{name});\n"))
        .collect();
    let limits = [
        raw::USERS,
        raw::FILES,
        raw::FIELDS,
        raw::ET_DATA,
        raw::MAX_CAPACITY,
    ];
    let lines: String = limits.iter().map(|limit| format!("{limit}\n")).collect();
    assert_eq!(printed("limits", &statements), lines);
}

/// The header names each response as the crate does, in the same order.
#[test]
fn the_responses_are_the_same() {
    let text = std::fs::read_to_string(header()).expect("the header");
    let (_, responses) = text.split_once("TOWUNGBE_GOOD").expect("responses");
    let (responses, _) = responses.split_once("};").expect("their end");
    let found: Vec<String> = format!("TOWUNGBE_GOOD{responses}")
        .lines()
        .filter_map(|line| line.split_once("/*"))
        .map(|(name, _)| name.trim().trim_end_matches(',').to_string())
        .collect();
    let expected: Vec<String> = Response::ALL
        .into_iter()
        .map(|response| format!("TOWUNGBE_{} = {}", capitals(response), response.number()))
        .collect();
    assert_eq!(found, expected);
}

/// `ValueTaken` as `VALUE_TAKEN`.
fn capitals(response: Response) -> String {
    let mut name = String::new();
    for (place, letter) in format!("{response:?}").char_indices() {
        if letter.is_uppercase() && place > 0 {
            name.push('_');
        }
        name.extend(letter.to_uppercase());
    }
    name
}
