//! The two implementations agree; and a difference in any one thing would be seen.

use beside::compare::{compare, Both};
use beside::twin::{Given, Twin};
use beside::{run, run::step, Counts};
use second::machine::Machine;
use second::random::ListCall;
use second::state::{Answer, Call};

#[test]
fn random_calls_agree() {
    let counts = run(1_000_000, 20_000).expect("no difference");
    assert!(counts.calls >= 20_000 && counts.set_ups > 500);
    assert_eq!(counts.missing(), [""; 0]);
}

/// File 1, highest ISN 3: AA, one byte; file 2, highest ISN 2: AB, two bytes.
const TABLE: &[u8] = b"\x01\x01\x00\x03\x02AA\x01A \x01\x02\x00\x02\x02AB\x02A \x00";

fn call(command: &[u8; 2], option: u8, user: u8, isn: u16, record: &[u8]) -> ListCall {
    let call = Call {
        command: *command,
        option,
        user,
        file: 1,
        isn,
        limit: 0,
        clock: 0,
    };
    ListCall {
        call,
        format: b"AA.".to_vec(),
        record: record.to_vec(),
    }
}

/// Both implementations around a call, before which a change of a record is open, with ET data and room to spare.
struct Scene {
    before: Machine,
    after: Machine,
    answer: Answer,
    record: Vec<u8>,
    twin_before: Twin,
    twin: Twin,
    given: Given,
    list_call: ListCall,
}

fn scene(last: ListCall) -> Scene {
    scene_after(&[], last)
}

/// The same, with a few calls more before it.
fn scene_after(more: &[ListCall], last: ListCall) -> Scene {
    let mut machine =
        Machine::with_sizes(TABLE, 4, 3 * 2 + 2 * 3 + 1, 5, 4 * 2 + 1, 0xA5).expect("good");
    let mut twin = Twin::of(&machine);
    let before = [
        call(b"N1", b' ', 1, 0, b"x"),
        call(b"ET", b' ', 1, 0, b"data"),
        call(b"A1", b'H', 1, 1, b"y"),
    ];
    for list_call in before.iter().chain(more) {
        step(&mut machine, &mut twin, list_call, &mut Counts::default()).expect("equal");
    }
    let (before, twin_before) = (machine.clone(), twin.clone());
    let mut record = last.record.clone();
    let answer = machine.call(&last.call, &last.format, &mut record);
    let given = twin.call(&last).expect("answers");
    Scene {
        before,
        after: machine,
        answer,
        record,
        twin_before,
        twin,
        given,
        list_call: last,
    }
}

impl Scene {
    fn compare(&self) -> Result<(), String> {
        compare(&Both {
            call: &self.list_call.call,
            before: &self.before,
            after: &self.after,
            answer: &self.answer,
            record: &self.record,
            twin_before: &self.twin_before,
            twin: &self.twin,
            given: &self.given,
        })
    }
}

type Tamper = (fn(&mut Scene), &'static str);

fn seen(last: ListCall, tampers: &[Tamper]) {
    seen_after(&[], last, tampers);
}

fn seen_after(more: &[ListCall], last: ListCall, tampers: &[Tamper]) {
    assert_eq!(scene_after(more, last.clone()).compare(), Ok(()));
    for (place, (tamper, said)) in tampers.iter().enumerate() {
        let mut scene = scene_after(more, last.clone());
        tamper(&mut scene);
        let error = scene.compare().expect_err(said);
        assert!(error.starts_with(said), "{place}: {error}");
    }
}

/// What is changed after a good L4, and what is said of it.
const AFTER_GOOD: &[Tamper] = &[
    (
        |scene| scene.given.answer.sequence = 1,
        "the answers differ",
    ),
    (
        |scene| scene.given.answer.quantity = 2,
        "the answers differ",
    ),
    (
        |scene| scene.given.record.lent()[1] = 1,
        "the record buffers differ",
    ),
    (
        |scene| scene.twin.state.files[9].number = 1,
        "the kept table is changed",
    ),
    (|scene| scene.twin.state.clock = 1, "the states differ"),
    (|scene| scene.twin.state.entries = 2, "the states differ"),
    (
        |scene| scene.twin.state.users[0].sequence = 7,
        "the states differ",
    ),
    (
        |scene| scene.twin.state.users[0].transaction.begun = 7,
        "the states differ",
    ),
    (
        |scene| scene.twin.state.users[0].transaction.ready = true,
        "the states differ",
    ),
    (
        |scene| scene.twin.state.users[4].overdue = true,
        "the states differ",
    ),
    (
        |scene| scene.twin.state.et_data[0].bytes[3] = 7,
        "the states differ",
    ),
    (
        |scene| scene.twin.state.last_assigned[0] = 2,
        "the states differ",
    ),
    (
        |scene| scene.twin.state.last_assigned[5] = 2,
        "the states differ",
    ),
    (
        |scene| scene.twin.state.wait_queue.waiting = 1,
        "the lines differ",
    ),
    (
        |scene| scene.twin.state.wait_queue.places[31] = 1,
        "the lines differ",
    ),
    (
        |scene| scene.twin.state.users[4].hold_limit = 9,
        "another user is changed",
    ),
    (
        |scene| scene.twin.state.et_data[4].bytes[9] = 9,
        "another user is changed",
    ),
    (|scene| scene.twin.store.lent()[3] = 7, "the stores differ"),
    (|scene| scene.twin.store.lent()[12] = 7, "the stores differ"),
    (
        |scene| scene.twin.queue.lent()[0].changed = false,
        "the entries in use",
    ),
    (
        |scene| scene.twin.images.lent()[0] = 7,
        "the entries in use",
    ),
    (
        |scene| scene.twin.queue.lent()[4].user = 7,
        "more is changed",
    ),
    (|scene| scene.twin.images.lent()[8] = 7, "more is changed"),
    (
        |scene| scene.twin.capacity = 0,
        "a committed record lies elsewhere",
    ),
];

#[test]
fn each_difference_after_a_good_call_is_seen() {
    seen(call(b"L4", b' ', 1, 1, &[0; 3]), AFTER_GOOD);
}

/// User 1 ends, and the record is handed over to user 2, while user 3 waits on.
#[test]
fn each_difference_after_a_hand_over_is_seen() {
    seen_after(
        &[
            call(b"HI", b'W', 2, 1, b""),
            call(b"L4", b'W', 3, 1, &[0; 1]),
        ],
        call(b"ET", b' ', 1, 0, b""),
        &[
            (
                |scene| scene.given.answer.quantity = 0,
                "the answers differ",
            ),
            (
                |scene| scene.twin.state.users[1].transaction.active = false,
                "the states differ",
            ),
            (
                |scene| scene.twin.state.users[1].transaction.begun = 7,
                "the states differ",
            ),
            (
                |scene| scene.twin.state.users[2].transaction.active = true,
                "the states differ",
            ),
            (
                |scene| scene.twin.state.wait_queue.waiting = 2,
                "the lines differ",
            ),
            (
                |scene| scene.twin.state.wait_queue.places[0] |= 1 << 40,
                "the lines differ",
            ),
            (
                |scene| scene.twin.state.wait_queue.places[1] = 0,
                "the lines differ",
            ),
            (
                |scene| scene.twin.state.et_data[1].bytes[9] = 9,
                "another user is changed",
            ),
            (
                |scene| scene.twin.queue.lent()[0].user = 3,
                "the entries in use",
            ),
            (
                |scene| scene.twin.queue.lent()[0].existed = false,
                "the entries in use",
            ),
        ],
    );
}

/// What is free after a good call: entries past the count with their images, image bytes past the width, and what
/// belongs to no session.
#[test]
fn what_is_free_may_differ() {
    let mut scene = scene(call(b"CL", b' ', 2, 0, b""));
    scene.twin.state.users[1].hold_limit = 9;
    scene.twin.state.users[1].sequence = 9;
    scene.twin.state.users[1].access_only = true;
    scene.twin.state.users[1].transaction.begun = 9;
    scene.twin.queue.lent()[1].user = 9;
    scene.twin.images.lent()[1] = 9;
    scene.twin.images.lent()[7] = 9;
    assert_eq!(scene.compare(), Ok(()));
}

#[test]
fn each_difference_after_a_refused_call_is_seen() {
    seen(
        call(b"HI", b' ', 2, 1, b""),
        &[
            (
                |scene| scene.given.answer.response = 144,
                "the answers differ",
            ),
            (
                |scene| scene.twin.state.users[1].session = false,
                "the states differ",
            ),
            (
                |scene| scene.twin.queue.lent()[1].user = 7,
                "more is changed",
            ),
            (|scene| scene.twin.images.lent()[1] = 7, "more is changed"),
        ],
    );
    seen(
        call(b"HI", b'X', 2, 1, b""),
        &[
            (
                |scene| scene.twin.state.users[1].hold_limit = 7,
                "more is changed",
            ),
            (|scene| scene.twin.images.lent()[3] = 7, "more is changed"),
        ],
    );
}
