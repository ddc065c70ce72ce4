//! The lines of the program `lists` say all that a replay needs.

use call_lists::List;
use second::machine::Machine;
use std::process::Command;

fn output(arguments: &[&str]) -> (bool, String) {
    let output = Command::new(env!("CARGO_BIN_EXE_lists"))
        .args(arguments)
        .output()
        .expect("run");
    let text = String::from_utf8(output.stdout).expect("text");
    (output.status.success(), text)
}

#[test]
fn lists_can_be_replayed() {
    let (good, text) = output(&["100", "40"]);
    assert!(good);
    let lists = call_lists::read(&text).expect("good lines");
    assert_eq!(lists.len(), 40);
    let calls: usize = lists.iter().map(|list| list.calls.len()).sum();
    assert_eq!(calls + lists.len(), text.lines().count());
    assert!((400..=2400).contains(&calls), "{calls} calls");
    for list in &lists {
        replay(list);
    }
}

/// Runs a list with its lent buffers: every answer and record buffer is as the lines say.
fn replay(list: &List) {
    let lent = list.lent.expect("buffers");
    let mut machine = Machine::with_sizes(
        &list.table,
        list.capacity,
        lent.store,
        lent.queue,
        lent.images,
        lent.fill,
    )
    .expect("set-up");
    for listed in &list.calls {
        let expected = listed.expected.as_ref().expect("an answer");
        assert!(expected.after.is_some(), "{}", listed.text);
        let outcome = call_lists::run_call(&mut machine, &listed.call);
        assert_eq!(listed.check(&outcome), Ok(()), "{}", listed.text);
    }
}

#[test]
fn a_seed_gives_one_list() {
    let (_, one) = output(&["101"]);
    let (_, two) = output(&["100", "2"]);
    assert!(one.starts_with("list seed=101 ") && two.ends_with(&one));
}

/// The bytes are good input, with nearly all calls of the list.
#[test]
fn a_list_for_partycall() {
    let printed = Command::new(env!("CARGO_BIN_EXE_lists"))
        .args(["--house", "101"])
        .output()
        .expect("run")
        .stdout;
    let list = second::random::list(101);
    let lines = second::house::run(&printed);
    assert!(printed.starts_with(&list.table) && !lines.contains("bad"));
    let count = lines.lines().count();
    assert!(
        (list.calls.len() / 2..=list.calls.len()).contains(&count),
        "{count}"
    );
}

#[test]
fn bad_arguments_fail() {
    for arguments in [
        &[][..],
        &["x"],
        &["1", "x"],
        &["--counts", "1"],
        &["--house"],
    ] {
        assert!(!output(arguments).0, "{arguments:?}");
    }
}

#[test]
fn counts_are_printed() {
    let (good, text) = output(&["--counts", "1", "50"]);
    assert!(good && text.contains("113 (range)"), "{text}");
}
