//! The crate over the library: any bytes are answered, buffers stay as they are past their sizes, and each response of
//! the documents has its name.

use towungbe::raw::{self, Block, Entry, Lent, State, Waiter};
use towungbe::{Buffers, Call, Command, CommandOption, Nucleus, Response};

/// File 1, highest ISN 3: RC, one byte, unique; HH, two bytes. File 2, highest ISN 1: AA, five bytes.
const TABLE: &[u8] = b"\x01\x01\x00\x03\x02RC\x01AU\x02HH\x02A \x01\x02\x00\x01\x02AA\x05A \x00";
const STORE: usize = 3 * 4 + 6;
const WIDTH: usize = 5;

fn nucleus() -> Nucleus {
    Nucleus::new(TABLE, 4).expect("a good table")
}

fn call(nucleus: &mut Nucleus, call: Call, format: &[u8], record: &[u8]) -> Response {
    let mut record = record.to_vec();
    nucleus.call(&call, format, &mut record).response
}

#[test]
fn the_responses_are_the_documents() {
    let numbers = [
        0, 3, 9, 10, 11, 12, 17, 20, 22, 29, 41, 44, 47, 53, 55, 70, 72, 75, 113, 144, 145, 146,
        198, 211, 212,
    ];
    assert_eq!(Response::ALL.map(Response::number), numbers);
    for number in 0..=u16::MAX {
        let response = Response::from_number(number);
        assert_eq!(response.is_some(), numbers.contains(&number), "{number}");
    }
    for response in Response::ALL {
        let said = response.explanation();
        assert!(
            said.ends_with('.') && said.starts_with(char::is_uppercase),
            "{said}"
        );
        assert_eq!(
            response.to_string(),
            format!("{}: {said}", response.number())
        );
        assert_eq!(response.is_good(), response.number() == 0);
    }
}

#[test]
fn buffers_are_just_large_enough() {
    let buffers = Buffers::for_table(TABLE, 4);
    let lengths = (
        buffers.store.len(),
        buffers.queue.len(),
        buffers.images.len(),
    );
    assert_eq!(lengths, (STORE, 4, 4 * WIDTH));
    assert!(Nucleus::with_buffers(TABLE, 4, buffers.clone()).is_ok());
    let mut shorter = [buffers.clone(), buffers.clone(), buffers];
    shorter[0].store.pop();
    shorter[1].queue.pop();
    shorter[2].images.pop();
    for buffers in shorter {
        let refused = Nucleus::with_buffers(TABLE, 4, buffers).expect_err("too short");
        assert_eq!(refused, Response::TooShort);
    }
}

#[test]
fn any_table_and_any_capacity_are_answered() {
    for capacity in [0, 257, 1 << 32, usize::MAX / 2, usize::MAX] {
        let refused = Nucleus::new(TABLE, capacity).expect_err("capacity");
        assert_eq!(refused, Response::TooShort, "{capacity}");
        let refused = Nucleus::new(b"", capacity).expect_err("table first");
        assert_eq!(refused, Response::TableInvalid, "{capacity}");
    }
    for end in 0..TABLE.len() {
        let refused = Nucleus::new(&TABLE[..end], 1).expect_err("cut");
        assert_eq!(refused, Response::TableInvalid);
    }
    assert!(Nucleus::new(TABLE, 1).is_ok() && Nucleus::new(TABLE, 256).is_ok());
}

#[test]
fn raw_bytes_are_answered() {
    let mut nucleus = nucleus();
    let hold = Call::new(Command::Hi, 1).with_file(1).with_isn(1);
    let command = [0xFF, 0];
    for unknown in [Call { command, ..hold }, Call { option: 0, ..hold }] {
        assert_eq!(
            call(&mut nucleus, unknown, b"", b""),
            Response::CommandUnknown
        );
    }
    for user in [0, 33, 255] {
        let refused = call(&mut nucleus, Call { user, ..hold }, b"", b"");
        assert_eq!(refused, Response::UserInvalid);
    }
    for file in [0, 3, 255] {
        let refused = call(&mut nucleus, hold.with_file(file), b"", b"");
        assert_eq!(refused, Response::FileUndefined);
    }
    for isn in [0, 4, u16::MAX] {
        let refused = call(&mut nucleus, hold.with_isn(isn), b"", b"");
        assert_eq!(refused, Response::IsnInvalid);
    }
}

/// Each option goes with its commands alone.
#[test]
fn commands_and_options_are_known() {
    let options = [
        (CommandOption::None, &Command::ALL[..]),
        (CommandOption::Lowest, &[Command::L1, Command::L4]),
        (CommandOption::Committed, &[Command::L1]),
        (CommandOption::Wait, &[Command::Hi, Command::L4]),
        (CommandOption::Hold, &[Command::A1, Command::E1]),
        (CommandOption::AccessOnly, &[Command::Op]),
    ];
    for (option, commands) in options {
        for command in Command::ALL {
            let mut nucleus = nucleus();
            let known = Call::new(command, 1).with_option(option);
            let response = call(&mut nucleus, known, b"", b"");
            let is_known = response != Response::CommandUnknown;
            assert_eq!(
                is_known,
                commands.contains(&command),
                "{command:?} {option:?}"
            );
        }
    }
}

#[test]
fn what_is_kept_can_be_read() {
    let mut nucleus = nucleus();
    let add = Call::new(Command::N1, 7).with_file(1).with_clock(50);
    assert!(call(&mut nucleus, add, b"RC.", b"x").is_good());
    let entry = Entry {
        user: 7,
        file: 1,
        isn: 1,
        changed: true,
        existed: false,
    };
    assert_eq!(nucleus.entries(), [entry]);
    let before = nucleus.clone();
    let end = Call::new(Command::Et, 7);
    assert!(call(&mut nucleus, end, b"", b"data").is_good());
    let state = nucleus.state();
    assert_eq!((state.clock, state.users[6].sequence), (50, 1));
    assert_eq!(
        state.et_data[6].bytes[..usize::from(state.et_data[6].length)],
        *b"data"
    );
    assert_eq!(nucleus.buffers().store[..4], *b"\x01x  ");
    assert_eq!((nucleus.entries(), nucleus.capacity()), (&[][..], 4));
    assert_eq!(before.entries(), [entry], "a clone has its own buffers");
}

/// Bytes and entries past the sizes are never touched.
#[test]
fn bytes_past_the_sizes_stay() {
    let strange = Entry {
        user: 9,
        file: 9,
        isn: 9,
        changed: true,
        existed: true,
    };
    let buffers = Buffers {
        store: vec![0xA5; STORE + 9],
        queue: vec![strange; 2 + 9],
        images: vec![0xA5; 2 * WIDTH + 9],
    };
    let mut nucleus = Nucleus::with_buffers(TABLE, 2, buffers).expect("large enough");
    let add = Call::new(Command::N1, 1);
    assert!(call(&mut nucleus, add.with_file(1), b"RC.", b"1").is_good());
    assert!(call(&mut nucleus, add.with_file(2), b"AA.", b"12345").is_good());
    assert!(call(&mut nucleus, Call::new(Command::Et, 1), b"", b"").is_good());
    let change = Call::new(Command::A1, 1)
        .with_option(CommandOption::Hold)
        .with_isn(1);
    assert!(call(&mut nucleus, change.with_file(1), b"RC.", b"2").is_good());
    assert!(call(&mut nucleus, change.with_file(2), b"AA.", b"54321").is_good());
    let buffers = nucleus.buffers();
    assert_eq!(buffers.store[STORE..], [0xA5; 9]);
    assert_eq!(buffers.queue[2..], [strange; 9]);
    assert_eq!(buffers.images[2 * WIDTH..], [0xA5; 9]);
}

/// What a call on a state answers, with large buffers.
fn response_on(state: &mut State) -> u32 {
    let lent = Lent {
        store: &mut [0; STORE],
        queue: &mut [Entry::default(); 4],
        images: &mut [0; 4 * WIDTH],
    };
    let mut block = Block::from(Call::new(Command::Re, 1));
    let response = raw::call(state, &mut block, 4, lent, b"", &mut [0; 64]);
    assert_eq!(u32::from(block.response), response);
    response
}

#[test]
fn a_state_that_is_not_well_made_gets_12() {
    assert_eq!(response_on(&mut State::default()), 12, "nothing set up");
    let good = *nucleus().state();
    assert_eq!(response_on(&mut good.clone()), 0);
    let spoilers: [fn(&mut State); 12] = [
        |state| state.files[0].fields[0].format = 4,
        |state| state.files[0].fields[1].option = 3,
        |state| state.files[1].fields[0].length = 254,
        |state| state.count = 17,
        |state| state.entries = 5,
        |state| state.et_data[31].length = 65,
        |state| state.users[3].transaction.active = true,
        |state| state.users[3].transaction.ready = true,
        |state| state.last_assigned[0] = 4,
        |state| state.wait_queue.waiting = 1,
        |state| state.wait_queue.waiting = 33,
        |state| state.wait_queue.waiting = usize::MAX,
    ];
    for (place, spoil) in spoilers.iter().enumerate() {
        let mut state = good;
        spoil(&mut state);
        let spoilt = state;
        assert_eq!(response_on(&mut state), 12, "{place}");
        assert_eq!(state, spoilt, "all is left as it was");
    }
}

/// Option W: who waits can be read, in order, and the first has the hold when it is let go, with a transaction.
#[test]
fn a_hold_is_handed_over() {
    let mut nucleus = nucleus();
    let waiting = |command, user| {
        Call::new(command, user)
            .with_option(CommandOption::Wait)
            .with_file(1)
            .with_isn(2)
    };
    let add = Call::new(Command::N2, 1).with_file(1).with_isn(2);
    assert!(call(&mut nucleus, add, b"RC.", b"x").is_good());
    for (command, user) in [(Command::L4, 3), (Command::Hi, 2)] {
        let response = call(&mut nucleus, waiting(command, user), b"RC.", b" ");
        assert_eq!(response, Response::Waiting);
    }
    let waiter = |user, reads| Waiter {
        user,
        file: 1,
        isn: 2,
        reads,
    };
    let waiters: Vec<Waiter> = nucleus.waiters().collect();
    assert_eq!(waiters, [waiter(3, true), waiter(2, false)]);
    let end = Call::new(Command::Et, 1).with_clock(50);
    assert_eq!(nucleus.call(&end, b"", &mut []).quantity, 1);
    assert_eq!(nucleus.entries()[0].user, 3);
    let transaction = nucleus.state().users[2].transaction;
    assert_eq!((transaction.active, transaction.begun), (true, 50));
    let mut record = [0];
    let read = nucleus.call(&waiting(Command::L4, 3), b"RC.", &mut record);
    assert_eq!((read.response, record), (Response::Good, *b"x"));
    assert!(nucleus.waiters().eq([waiter(2, false)]));
    let other = Call::new(Command::Re, 2);
    assert!(call(&mut nucleus, other, b"", &[0; 64]).is_good());
    assert_eq!(nucleus.waiters().count(), 0, "another call leaves the line");
}

/// PE: the record of a transaction that is ready waits for its ET, however late that comes.
#[test]
fn a_ready_transaction_waits() {
    let mut nucleus = nucleus();
    let by_user_1 = |command| Call::new(command, 1).with_file(1);
    let pe = by_user_1(Command::Pe);
    let reads = Call::new(Command::L1, 2).with_file(1).with_isn(1);
    let mut make =
        |made: Call, format: &[u8], record: &[u8]| call(&mut nucleus, made, format, record);
    assert_eq!(make(pe, b"", b""), Response::NoTransaction);
    assert_eq!(make(by_user_1(Command::N1), b"RC.", b"2"), Response::Good);
    assert_eq!(make(pe, b"", b""), Response::Good);
    assert_eq!(make(pe, b"", b""), Response::TransactionReady);
    assert_eq!(make(reads.with_clock(901), b"RC.", b" "), Response::Good);
    let et = by_user_1(Command::Et).with_clock(10_000);
    assert_eq!(make(et, b"", b""), Response::Good);
    assert_eq!(make(reads, b"RC.", b" "), Response::Good);
    assert!(!nucleus.state().users[0].transaction.ready);
}

/// The record as ended transactions left it, by a reading and as a part: changed, emptied, added, only held.
#[test]
fn committed_records() {
    let mut nucleus = nucleus();
    let make = |nucleus: &mut Nucleus, command, user, isn, record: &[u8]| {
        let option = match command {
            Command::A1 | Command::E1 => CommandOption::Hold,
            _ => CommandOption::None,
        };
        let made = Call::new(command, user).with_option(option).with_file(1);
        assert!(call(nucleus, made.with_isn(isn), b"RC,HH.", record).is_good());
    };
    make(&mut nucleus, Command::N2, 1, 1, b"1AB");
    make(&mut nucleus, Command::N2, 1, 2, b"2CD");
    make(&mut nucleus, Command::Et, 1, 0, b"");
    assert_eq!(seen_twice(&mut nucleus), [&b"1AB"[..], b"2CD", b""]);
    make(&mut nucleus, Command::Hi, 2, 1, b"");
    assert_eq!(seen_twice(&mut nucleus), [&b"1AB"[..], b"2CD", b""]);
    make(&mut nucleus, Command::A1, 2, 1, b"3EF");
    make(&mut nucleus, Command::E1, 3, 2, b"");
    make(&mut nucleus, Command::N2, 4, 3, b"4GH");
    assert_eq!(seen_twice(&mut nucleus), [&b"1AB"[..], b"2CD", b""]);
    let buffers = nucleus.buffers();
    assert_eq!(nucleus.committed(1, 1).as_ptr(), buffers.images.as_ptr());
    for user in [4, 3, 2] {
        make(&mut nucleus, Command::Et, user, 0, b"");
    }
    assert_eq!(seen_twice(&mut nucleus), [&b"3EF"[..], b"", b"4GH"]);
    let buffers = nucleus.buffers();
    assert_eq!(nucleus.committed(1, 1).as_ptr(), &buffers.store[1]);
}

/// What user 5 reads with `C` at each ISN of file 1, which must be the parts.
fn seen_twice(nucleus: &mut Nucleus) -> [Vec<u8>; 3] {
    [1, 2, 3].map(|isn| {
        let part = nucleus.committed(1, isn).to_vec();
        let reads = Call::new(Command::L1, 5).with_option(CommandOption::Committed);
        let reads = reads.with_file(1).with_isn(isn);
        let mut record = [0; 3];
        let answer = nucleus.call(&reads, b"RC,HH.", &mut record);
        let expected = match part.is_empty() {
            true => Response::IsnInvalid,
            false => Response::Good,
        };
        assert_eq!(answer.response, expected);
        assert_eq!(record[..answer.quantity], part);
        part
    })
}

/// No bytes where `C` would be answered 11, 12, 17 or 113.
#[test]
fn no_committed_record() {
    let mut nucleus = nucleus();
    let add = Call::new(Command::N1, 1).with_file(1);
    assert!(call(&mut nucleus, add, b"RC,HH.", b"1AB").is_good());
    assert!(call(&mut nucleus, Call::new(Command::Et, 1), b"", b"").is_good());
    for (file, isn) in [(0, 1), (3, 1), (255, 1), (1, 0), (1, 2), (1, 4), (1, 65535)] {
        assert_eq!(nucleus.committed(file, isn), b"", "{file} {isn}");
    }
    let Buffers {
        store,
        queue,
        images,
    } = nucleus.buffers();
    let state = nucleus.state();
    let part = |state: &State, capacity, store: &[u8], queue: &[Entry], images: &[u8]| {
        raw::committed_place(state, capacity, 1, 1, store, queue, images)
    };
    let place = raw::Place {
        start: 1,
        length: 3,
        imaged: false,
    };
    assert_eq!(part(state, 4, store, queue, images), place);
    let none = raw::Place::default();
    for capacity in [0, 5, 257, usize::MAX] {
        assert_eq!(part(state, capacity, store, queue, images), none);
    }
    assert_eq!(part(state, 4, &store[1..], queue, images), none);
    assert_eq!(part(state, 4, store, &queue[1..], images), none);
    assert_eq!(part(state, 4, store, queue, &images[1..]), none);
    assert_eq!(part(&State::default(), 4, store, queue, images), none);
    let mut damaged = *state;
    damaged.users[3].transaction.ready = true;
    assert_eq!(part(&damaged, 4, store, queue, images), none);
}

/// A lent X'5B' counts as it is, while what a call brings is stored with D.
#[test]
fn a_lent_sign_is_compared_as_it_is() {
    // Highest ISN 3: PB, packed, one byte, unique.
    let table = b"\x01\x01\x00\x03\x02PB\x01PU\x00";
    let mut state = *Nucleus::new(table, 4).expect("a good table").state();
    let mut store = [1, 0x5B, 0, 0, 0, 0];
    let (mut queue, mut images) = ([Entry::default(); 4], [0; 4]);
    for (isn, response) in [(2, 0), (3, 198)] {
        let lent = Lent {
            store: &mut store,
            queue: &mut queue,
            images: &mut images,
        };
        let mut block = Block::from(Call::new(Command::N2, 1).with_file(1).with_isn(isn));
        let said = raw::call(&mut state, &mut block, 4, lent, b"PB.", &mut [0x5B]);
        assert_eq!(said, response, "ISN {isn}");
    }
    assert_eq!(store, [1, 0x5B, 1, 0x5D, 0, 0]);
}
