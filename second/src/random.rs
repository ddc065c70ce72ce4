//! Random call lists by seed, biased to collide: few users, few ISNs, tiny limits, few values, clocks that jump and run
//! backwards, malformed buffers, unknown commands. A list is made beside a nucleus that runs it, so that some of its
//! calls are aimed at what is there.

use crate::aimed;
use crate::compare;
use crate::definition::{self, Definition, Field, File};
use crate::machine::Machine;
use crate::state::{self, Call};
use crate::store;

/// A splitmix64 generator.
pub struct Random(u64);

impl Random {
    pub fn new(seed: u64) -> Random {
        Random(seed)
    }

    pub fn number(&mut self) -> u64 {
        self.0 = self.0.wrapping_add(0x9E37_79B9_7F4A_7C15);
        let mut mixed = self.0;
        mixed = (mixed ^ (mixed >> 30)).wrapping_mul(0xBF58_476D_1CE4_E5B9);
        mixed = (mixed ^ (mixed >> 27)).wrapping_mul(0x94D0_49BB_1331_11EB);
        mixed ^ (mixed >> 31)
    }

    /// A number below `bound`, which is not 0.
    pub fn below(&mut self, bound: u64) -> u64 {
        self.number() % bound
    }

    /// A number from `low` to `high`.
    pub fn between(&mut self, low: u64, high: u64) -> u64 {
        low + self.below(high - low + 1)
    }

    /// True once in `times`.
    pub fn once_in(&mut self, times: u64) -> bool {
        self.below(times) == 0
    }

    pub fn pick<T: Copy>(&mut self, items: &[T]) -> T {
        items[self.below(items.len() as u64) as usize]
    }

    /// One of the items; none where there are none.
    pub fn pick_any<T: Copy>(&mut self, items: &[T]) -> Option<T> {
        match items {
            [] => None,
            _ => Some(self.pick(items)),
        }
    }

    pub fn bytes(&mut self, length: usize) -> Vec<u8> {
        (0..length).map(|_| self.number() as u8).collect()
    }
}

/// One call of a list, with its buffers as brought.
#[derive(Clone, Debug, PartialEq)]
pub struct ListCall {
    pub call: Call,
    pub format: Vec<u8>,
    pub record: Vec<u8>,
}

/// A table, a capacity, the lengths of the lent buffers and the calls.
#[derive(Clone, Debug)]
pub struct List {
    pub seed: u64,
    pub table: Vec<u8>,
    pub capacity: u32,
    pub store: usize,
    pub queue: usize,
    pub images: usize,
    pub calls: Vec<ListCall>,
}

/// How many calls of a list have a command and an option by turn. In 25 lists with seeds in a row each command comes
/// with each option.
const TURNS: u64 = 4;

/// The options that are named for some command, the blank, and bytes that are no option.
fn options(random: &mut Random) -> [u8; 7] {
    let other = random.pick(&[0, b'h', b'X', b'R', b'c', b'w']);
    [b' ', b'I', b'H', b'A', b'C', b'W', other]
}

/// The list of a seed.
pub fn list(seed: u64) -> List {
    let random = &mut Random::new(seed);
    let table = table(random);
    let capacity = random.pick(&[1, 2, 3, 4, 5, 6, 8]);
    list_on(random, seed, table, capacity)
}

/// A list of a seed on a large table, with room for many holds.
pub fn large_list(seed: u64) -> List {
    let random = &mut Random::new(seed);
    let table = large_table(random);
    let capacity = random.pick(&[1, 16, 64, 255, 256]);
    list_on(random, seed, table, capacity)
}

fn list_on(random: &mut Random, seed: u64, table: Vec<u8>, capacity: u32) -> List {
    let Some(definition) = definition::read_table(&table) else {
        unreachable!("a random table is valid");
    };
    let spare = random.below(3) as usize;
    let mut list = List {
        seed,
        capacity,
        store: store::store_size(&definition) + spare,
        queue: capacity as usize + spare,
        images: capacity as usize * definition.greatest_record_length() + spare,
        table,
        calls: Vec::new(),
    };
    add_calls(random, &mut list);
    list
}

/// Makes the calls of a list, one after the other, and runs them.
fn add_calls(random: &mut Random, list: &mut List) {
    let Ok(mut machine) = compare::machine(list) else {
        unreachable!("the table is valid and the buffers are large enough");
    };
    let mut clock = 0;
    let length = random.between(10, 60);
    let users = random.between(1, 4);
    let codes = state::codes();
    for place in 0..length {
        let mut list_call = list_call(random, &machine, users, &mut clock);
        if let Some(turn) = turn_at(place, length) {
            let turn = list.seed.wrapping_mul(TURNS).wrapping_add(turn) as usize;
            list_call.call.command = codes[turn % codes.len()];
            let options = options(random);
            list_call.call.option = options[turn / codes.len() % options.len()];
        }
        let mut record = list_call.record.clone();
        machine.call(&list_call.call, &list_call.format, &mut record);
        list.calls.push(list_call);
    }
}

/// The number of the turn that is at this place of a list: they are spread over it.
fn turn_at(place: u64, length: u64) -> Option<u64> {
    (0..TURNS).find(|turn| (turn + 1) * length / (TURNS + 1) == place)
}

/// A valid table of 1 to 3 files with 1 to 5 ISNs and 1 to 4 fields.
pub fn table(random: &mut Random) -> Vec<u8> {
    let mut table = Vec::new();
    let first = random.between(1, 14) as u8;
    for number in first..=first + random.below(3) as u8 {
        table.extend([definition::FILE_ITEM, number, 0, random.between(1, 5) as u8]);
        for name in 0..random.between(1, 4) as u8 {
            table.extend([definition::FIELD_ITEM, b'A', b'A' + name]);
            table.push(random.between(1, 2) as u8);
            table.push(random.pick(b"ABUPP"));
            table.push(random.pick(b"UU D"));
        }
    }
    table.push(definition::END_ITEM);
    table
}

/// A valid table of up to 16 files, their numbers falling, with up to 16 fields of any length and up to 4095 ISNs; a
/// file's part of the store has about 8000 bytes at most.
pub fn large_table(random: &mut Random) -> Vec<u8> {
    let mut table = Vec::new();
    for number in (random.between(1, 16) as u8..=16).rev() {
        let fields = large_fields(random);
        let width: u64 = fields.iter().map(|field| u64::from(field[3])).sum();
        let isns = random.pick(&[1, 5, 255, 256, 4095]).min(8192 / (width + 1)) as u16;
        let [high, low] = isns.to_be_bytes();
        table.extend([definition::FILE_ITEM, number, high, low]);
        table.extend(fields.concat());
    }
    table.push(definition::END_ITEM);
    table
}

/// The items of up to 16 fields, at most 512 bytes together.
fn large_fields(random: &mut Random) -> Vec<[u8; 6]> {
    let mut room = definition::MAX_RECORD_LENGTH as u64;
    let mut fields = Vec::new();
    for name in 0..random.pick(&[1, 2, 4, 15, 16]) {
        let (format, greatest) = random.pick(&[(b'A', 253), (b'B', 126), (b'U', 29), (b'P', 15)]);
        let wanted = match random.once_in(3) {
            true => greatest,
            false => random.between(1, greatest),
        };
        // Each of the fields that may follow needs a byte.
        let length = wanted.min(room - (15 - name as u64));
        room -= length;
        let option = random.pick(b"U D ");
        fields.push([
            definition::FIELD_ITEM,
            b'A',
            b'A' + name,
            length as u8,
            format,
            option,
        ]);
    }
    fields
}

fn list_call(random: &mut Random, machine: &Machine, users: u64, clock: &mut u32) -> ListCall {
    *clock = next_clock(random, *clock);
    let aimed = match random.once_in(2) {
        true => aimed::call(random, machine),
        false => None,
    };
    let mut list_call = match aimed {
        Some(list_call) => list_call,
        None => any_call(random, &machine.state.definition, users),
    };
    // A call that is aimed at somebody's time limit has a clock of its own.
    *clock = list_call.call.clock.max(*clock);
    list_call.call.clock = *clock;
    list_call
}

/// A call that looks at nothing but the definition.
fn any_call(random: &mut Random, definition: &Definition, users: u64) -> ListCall {
    let command = command(random);
    let index = random.below(u64::from(definition.count)) as usize;
    let file = &definition.files[index];
    let elements = elements(random, file, command);
    let call = Call {
        command,
        option: option(random, command),
        user: user(random, users),
        file: file_number(random, file),
        isn: isn(random, file, command),
        limit: random.pick(&[0, 1, 1, 2, 3, 10, 900]),
        clock: 0,
    };
    let format = format(random, file, &elements);
    let record = record(random, file, command, &elements);
    ListCall {
        call,
        format,
        record,
    }
}

/// Mostly stays or creeps on; sometimes jumps by about a time limit, far ahead, or backwards.
fn next_clock(random: &mut Random, clock: u32) -> u32 {
    match random.below(100) {
        0..=59 => clock,
        60..=84 => clock.saturating_add(random.between(1, 3) as u32),
        85..=88 => clock.saturating_add(random.between(899, 902) as u32),
        89 => clock.saturating_add(random.number() as u32 >> random.below(32)),
        90..=95 => clock.saturating_sub(random.between(1, 5) as u32),
        _ => 0,
    }
}

/// The commands that change come more often, and ET, so that there are records to change, and OP with its limits; a few
/// are unknown.
fn command(random: &mut Random) -> [u8; 2] {
    match random.below(100) {
        0..=1 => random.pick(&[*b"hi", *b"XX", *b"L9", *b"1A", [0, 0], [0xFF, 0xFF]]),
        2..=39 => random.pick(&[*b"N1", *b"N2", *b"N2", *b"A1"]),
        40..=59 => random.pick(&[*b"HI", *b"L4", *b"A1", *b"E1", *b"RI"]),
        60..=67 => *b"ET",
        68..=69 => *b"OP",
        _ => random.pick(&state::codes()),
    }
}

fn option(random: &mut Random, command: [u8; 2]) -> u8 {
    if random.once_in(50) {
        return random.pick(&[0, b'H', b'I', b'A', b'C', b'W', b'h', b'X', b'w']);
    }
    match &command {
        b"A1" | b"E1" => random.pick(b"HH "),
        b"L1" => random.pick(b"ICC  "),
        b"L4" => random.pick(b"IWWW  "),
        b"HI" => random.pick(b"WW "),
        b"OP" => random.pick(b"A  "),
        _ => b' ',
    }
}

fn user(random: &mut Random, users: u64) -> u8 {
    if random.once_in(60) {
        return random.pick(&[0, 32, 33, 255]);
    }
    random.between(1, users) as u8
}

fn file_number(random: &mut Random, file: &File) -> u8 {
    if random.once_in(40) {
        return random.pick(&[0, 1, 15, 16, 17, 255]);
    }
    file.number
}

/// An ISN of the file or one beyond either end; for OP a hold limit.
fn isn(random: &mut Random, file: &File, command: [u8; 2]) -> u16 {
    match &command {
        b"OP" => random.pick(&[0, 1, 1, 2, 3]),
        b"RI" => random.between(0, u64::from(file.max_isn)) as u16,
        _ if random.once_in(25) => random.pick(&[0, file.max_isn + 1, 4095, 65535]),
        _ => random.between(1, u64::from(file.max_isn)) as u16,
    }
}

/// The fields to name: often all or none, rarely one twice, more often so for reading.
fn elements(random: &mut Random, file: &File, command: [u8; 2]) -> Vec<usize> {
    if random.once_in(6) {
        return Vec::new();
    }
    let count = u64::from(file.count);
    let mut elements: Vec<usize> = (0..file.count as usize)
        .filter(|_| random.below(4) > 0)
        .collect();
    if elements.is_empty() {
        elements.push(random.below(count) as usize);
    }
    if random.once_in(2) {
        elements.reverse();
    }
    let reading = matches!(&command, b"L1" | b"L4");
    if random.once_in(if reading { 5 } else { 25 }) {
        elements.push(elements[0]);
    }
    elements
}

/// The format buffer of these fields: `.` where they are none.
pub fn format_of(file: &File, elements: &[usize]) -> Vec<u8> {
    let names: Vec<&[u8]> = elements
        .iter()
        .map(|index| &file.fields[*index].name[..])
        .collect();
    let mut format = names.join(&b',');
    format.push(b'.');
    format
}

/// The same, rarely malformed.
fn format(random: &mut Random, file: &File, elements: &[usize]) -> Vec<u8> {
    let mut format = format_of(file, elements);
    if random.once_in(20) {
        malform(random, &mut format);
    }
    format
}

fn malform(random: &mut Random, format: &mut Vec<u8>) {
    match random.below(6) {
        0 => format.clear(),
        1 => drop(format.pop()),
        2 => format.push(random.pick(b".,A")),
        3 => format.insert(0, random.pick(b"., ")),
        4 => format[0] = random.pick(b"azZ0"),
        _ if format.len() == 1 => format[0] = b',',
        _ => format[1] = random.pick(b"Za9."),
    }
}

/// The record buffer: ET data for ET, room for RE, otherwise the values, rarely too short or longer than needed.
fn record(random: &mut Random, file: &File, command: [u8; 2], elements: &[usize]) -> Vec<u8> {
    match &command {
        b"ET" => {
            let length = random.pick(&[0, 0, 0, 1, 2, 64, 65, 70]);
            return random.bytes(length);
        }
        b"RE" => return vec![0xEE; random.pick(&[0, 1, 2, 64, 80])],
        _ => {}
    }
    let mut record = values(random, file, elements);
    match random.below(30) {
        0 => drop(record.pop()),
        1..=4 => record.push(0xEE),
        _ => {}
    }
    record
}

/// Values of these fields, one after another.
pub fn values(random: &mut Random, file: &File, elements: &[usize]) -> Vec<u8> {
    elements
        .iter()
        .flat_map(|index| value(random, &file.fields[*index]))
        .collect()
}

/// One of few values, so that they meet; rarely one that is not allowed.
fn value(random: &mut Random, field: &Field) -> Vec<u8> {
    let mut value = vec![0; usize::from(field.length)];
    let last = value.len() - 1;
    match field.format {
        b'A' => {
            value.fill(b' ');
            value[last] = random.pick(b" 12");
        }
        b'B' => value[last] = random.pick(&[0, 1, 2]),
        b'U' => {
            value.fill(b'0');
            value[last] = random.pick(b"00001112229A/:");
        }
        _ => {
            value[last] = random.pick(&[0x00, 0x10, 0x10, 0x20]) + random.between(0xA, 0xF) as u8;
            if random.once_in(16) {
                value[last] = random.pick(&[0x10, 0x19, 0xAF]);
            }
            if last > 0 && random.once_in(40) {
                value[0] = random.pick(&[0x0A, 0xA0]);
            }
        }
    }
    value
}
