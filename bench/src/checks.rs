//! The checks of every call: a call that is refused with 22 behind them, by entries, files and fields.

use crate::by_reference;
use crate::measure::{measure, Runner, Times};
use crate::pair::Pair;
use crate::steps::Step;
use crate::tables;
use crate::work::Work;
use std::hint::black_box;
use towungbe::raw::{self, Block, EtData, State};
use towungbe::{Buffers, Command, Nucleus};

const CALLS: u32 = 200;
const MAX_ISN: u16 = 256;
const CAPACITY: u16 = 256;
const USERS: u16 = 32;

/// What the checks depend on.
#[derive(Clone, Copy)]
pub struct Size {
    pub files: u8,
    pub fields: u8,
    pub entries: u16,
}

/// Times of one refused call, by library, second, and the checks alone in Rust by reference.
pub struct Checks {
    pub size: Size,
    pub times: Vec<Times>,
}

pub fn measure_all(sizes: &[Size], rounds: usize) -> Vec<Checks> {
    let works: Vec<Work> = sizes.iter().map(work).collect();
    let runners = works.iter().map(|work| {
        let nucleus = &work.start().nucleus;
        vec![work.library(), work.second(), by_reference(nucleus)]
    });
    let times = measure(runners.collect(), rounds);
    let checks = |(size, times): (&Size, Vec<Times>)| Checks { size: *size, times };
    sizes.iter().zip(times).map(checks).collect()
}

fn work(size: &Size) -> Work {
    let table = tables::of_fields(size.files, size.fields, MAX_ISN);
    let mut start = Pair::new(&table, CAPACITY);
    start.run_good(&holds(size.files, size.entries));
    compare_by_reference(&start.nucleus);
    Work::of_call(&start, Step::refused(), 22, CALLS as usize)
}

impl Size {
    pub fn name(&self) -> String {
        let files = match self.files {
            1 => "1 file".to_string(),
            files => format!("{files} files"),
        };
        format!(
            "{files} of {} fields, {} entries",
            self.fields, self.entries
        )
    }
}

/// Holds by all users in turn, spread over the files.
fn holds(files: u8, entries: u16) -> Vec<Step> {
    let hold = |place: u16| {
        let file = place % u16::from(files);
        let isn = 1 + place / u16::from(files);
        Step::hold(Command::Hi, (1 + place % USERS) as u8, 1 + file as u8, isn)
    };
    (0..entries).map(hold).collect()
}

fn by_reference(nucleus: &Nucleus) -> Runner<'_> {
    Runner::repeated("Rust by reference", CALLS, || {
        let (state, buffers) = black_box((nucleus.state(), nucleus.buffers()));
        let response = by_reference::refusal(state, nucleus.capacity(), buffers, *b"??");
        assert_eq!(black_box(response), 22);
    })
}

type Damage = fn(&mut State, &mut Buffers);

/// What makes a state one that is not well made; the first changes nothing, and a place behind a count means nothing.
const DAMAGES: [Damage; 19] = [
    |_, _| {},
    |state, _| state.count = 17,
    |state, _| state.files[0].number = 17,
    |state, _| state.files[0].max_isn = 4096,
    |state, _| state.files[0].fields[0].first = b'a',
    |state, _| state.files[0].fields[1] = state.files[0].fields[0],
    |state, _| state.files[0].fields[0].option = 3,
    |state, _| state.files[0].fields[0].format = 4,
    |state, _| state.files[15].fields[15].option = 3,
    |state, _| {
        state.users[31].transaction = raw::Transaction {
            begun: 1,
            active: true,
            ready: false,
        }
    },
    |state, _| state.users[0].session = false,
    |state, _| state.users[31].transaction.ready = true,
    |state, _| state.wait_queue.waiting = 1,
    |state, _| state.wait_queue.waiting = 33,
    |state, _| {
        state.et_data[31] = EtData {
            length: 65,
            bytes: [0; 64],
        }
    },
    |state, _| state.last_assigned[0] = MAX_ISN + 1,
    |state, _| state.entries = 257,
    |_, buffers| buffers.queue[1] = buffers.queue[0],
    |_, buffers| _ = buffers.store.pop(),
];

/// The checks by reference must be the library's: they answer as it does.
fn compare_by_reference(nucleus: &Nucleus) {
    for (place, damage) in DAMAGES.iter().enumerate() {
        let (mut state, mut buffers) = (*nucleus.state(), nucleus.buffers().clone());
        damage(&mut state, &mut buffers);
        let capacity = nucleus.capacity();
        let found = by_reference::refusal(&state, capacity, &buffers, *b"??");
        let expected = library_refusal(&mut state, capacity, &mut buffers);
        let found = u32::from(found);
        assert_eq!(
            found, expected,
            "damage {place}: by reference, then library"
        );
    }
}

fn library_refusal(state: &mut State, capacity: usize, buffers: &mut Buffers) -> u32 {
    let mut block = Block::from(Step::refused().call);
    let lent = raw::Lent {
        store: &mut buffers.store,
        queue: &mut buffers.queue,
        images: &mut buffers.images,
    };
    raw::call(state, &mut block, capacity, lent, b"", &mut [])
}
