//! The static library as it is: the types of include/towungbe.h and its five functions, made safe by references.
//!
//! Every function answers any input; a state that is not well made gets 12. [`Nucleus`](crate::Nucleus) is easier to use;
//! this module is for callers who keep the buffers themselves.

/// The greatest capacity of a hold queue.
pub const MAX_CAPACITY: usize = 256;
/// Users are numbered from 1 to this.
pub const USERS: usize = 32;
/// A table has at most so many files, and a file so many fields.
pub const FILES: usize = 16;
pub const FIELDS: usize = 16;
/// The most ET data that is kept for a user.
pub const ET_DATA: usize = 64;

/// An entry of the hold queue.
#[repr(C)]
#[derive(Clone, Copy, Debug, Default, PartialEq, Eq)]
pub struct Entry {
    pub user: u8,
    /// The file's number.
    pub file: u8,
    pub isn: u16,
    /// Whether the user has changed the record; then the entry may have an image.
    pub changed: bool,
    /// Whether a record was there before.
    pub existed: bool,
}

#[repr(C)]
#[derive(Clone, Copy, Debug, Default, PartialEq, Eq)]
pub struct Field {
    /// The two characters of its name.
    pub first: u8,
    pub second: u8,
    pub length: u8,
    /// 0 to 3: `A`, `B`, `U`, `P`.
    pub format: u8,
    /// 0 to 2: blank, `D`, `U`.
    pub option: u8,
}

/// A file. Places past the count mean nothing, whatever stands there. An unknown format or option number of a field makes a
/// state one that is not well made.
#[repr(C)]
#[derive(Clone, Copy, Debug, Default, PartialEq, Eq)]
pub struct File {
    pub number: u8,
    pub count: u8,
    pub max_isn: u16,
    pub fields: [Field; FIELDS],
}

#[repr(C)]
#[derive(Clone, Copy, Debug, Default, PartialEq, Eq)]
pub struct Transaction {
    /// The clock at which it began.
    pub begun: u32,
    pub active: bool,
    /// PE set it ready. Whoever is ready and in no transaction makes a state one that is not well made.
    pub ready: bool,
}

#[repr(C)]
#[derive(Clone, Copy, Debug, Default, PartialEq, Eq)]
pub struct User {
    pub sequence: u32,
    pub transaction: Transaction,
    pub hold_limit: u16,
    pub time_limit: u16,
    pub session: bool,
    pub access_only: bool,
    /// Backed out because his time ran out, and not yet told.
    pub overdue: bool,
}

#[repr(C)]
#[derive(Clone, Copy, Debug, PartialEq, Eq)]
pub struct EtData {
    pub length: u8,
    pub bytes: [u8; ET_DATA],
}

/// Who waits for records, in the order of joining; the line of a record is those who wait for it. Places past the number
/// mean nothing.
#[repr(C)]
#[derive(Clone, Copy, Debug, Default, PartialEq, Eq)]
pub struct WaitQueue {
    /// A [`Waiter`] each.
    pub places: [u64; USERS],
    /// How many wait.
    pub waiting: usize,
}

/// Who waits for an ISN that another user holds.
#[derive(Clone, Copy, Debug, PartialEq, Eq)]
pub struct Waiter {
    pub user: u8,
    /// The file's number.
    pub file: u8,
    pub isn: u16,
    /// By L4; otherwise by HI.
    pub reads: bool,
}

impl From<u64> for Waiter {
    /// The waiter at a place; its bits above 32 are not looked at.
    fn from(place: u64) -> Waiter {
        Waiter {
            user: place as u8,
            file: (place >> 8) as u8,
            isn: (place >> 16) as u16,
            reads: place >> 32 & 1 == 1,
        }
    }
}

impl WaitQueue {
    /// Who waits, the longest first.
    pub fn waiters(&self) -> impl Iterator<Item = Waiter> + '_ {
        let places = self.places.iter().take(self.waiting);
        places.map(|place| Waiter::from(*place))
    }
}

/// What is kept between calls, beside the lent buffers. Its default has no file: every call on it gets 12.
#[repr(C)]
#[derive(Clone, Copy, Debug, Default, PartialEq, Eq)]
pub struct State {
    /// How many files the table has; places past it mean nothing.
    pub count: u8,
    pub files: [File; FILES],
    pub clock: u32,
    /// User 1 first.
    pub users: [User; USERS],
    pub et_data: [EtData; USERS],
    /// The ISN that N1 last gave, by the file's place in the table.
    pub last_assigned: [u16; FILES],
    /// How many entries of the hold queue are in use.
    pub entries: usize,
    /// Who waits.
    pub wait_queue: WaitQueue,
}

/// A call's arguments, and its answer.
#[repr(C)]
#[derive(Clone, Copy, Debug, Default, PartialEq, Eq)]
pub struct Block {
    pub command: [u8; 2],
    pub option: u8,
    pub user: u8,
    pub file: u8,
    pub isn: u16,
    pub limit: u16,
    pub clock: u32,
    /// From here on the answer.
    pub response: u16,
    pub answered_isn: u16,
    pub sequence: u32,
    pub quantity: usize,
}

/// Where a whole record lies, as ended transactions left it. All is 0 where there is none.
#[repr(C)]
#[derive(Clone, Copy, Debug, Default, PartialEq, Eq)]
pub struct Place {
    /// Its first byte, in the images or in the store.
    pub start: usize,
    pub length: usize,
    /// Whether it lies in the images.
    pub imaged: bool,
}

impl Default for EtData {
    fn default() -> EtData {
        EtData {
            length: 0,
            bytes: [0; ET_DATA],
        }
    }
}

/// The buffers that a caller lends.
#[derive(Debug)]
pub struct Lent<'a> {
    pub store: &'a mut [u8],
    pub queue: &'a mut [Entry],
    pub images: &'a mut [u8],
}

mod c {
    use super::{Block, Entry, Place, State};

    // A slice passes as a pointer and a count.
    extern "C" {
        pub fn towungbe_set_up(
            state: *mut State,
            capacity: usize,
            table: *const u8,
            table_length: usize,
            store: *mut u8,
            store_length: usize,
            queue: *const Entry,
            queue_length: usize,
            images: *const u8,
            images_length: usize,
        ) -> u32;
        pub fn towungbe_call(
            state: *mut State,
            block: *mut Block,
            capacity: usize,
            store: *mut u8,
            store_length: usize,
            queue: *mut Entry,
            queue_length: usize,
            images: *mut u8,
            images_length: usize,
            format: *const u8,
            format_length: usize,
            record: *mut u8,
            record_length: usize,
        ) -> u32;
        pub fn towungbe_committed_place(
            state: *const State,
            capacity: usize,
            file: u8,
            isn: u16,
            store: *const u8,
            store_length: usize,
            queue: *const Entry,
            queue_length: usize,
            images: *const u8,
            images_length: usize,
            place: *mut Place,
        );
        pub fn towungbe_store_size(table: *const u8, table_length: usize) -> usize;
        pub fn towungbe_image_size(table: *const u8, table_length: usize, capacity: usize)
            -> usize;
    }
}

/// Makes a fresh nucleus; gives 0, 10 or 11.
pub fn set_up(state: &mut State, capacity: usize, table: &[u8], lent: Lent) -> u32 {
    // SAFETY: the function asks for nothing more than what references promise: each pointer is valid for its count and
    // of the type that the library has, and what it writes overlaps nothing.
    unsafe {
        c::towungbe_set_up(
            state,
            capacity,
            table.as_ptr(),
            table.len(),
            lent.store.as_mut_ptr(),
            lent.store.len(),
            lent.queue.as_ptr(),
            lent.queue.len(),
            lent.images.as_ptr(),
            lent.images.len(),
        )
    }
}

/// Makes one call; the answer is in the block, and its response is given too.
pub fn call(
    state: &mut State,
    block: &mut Block,
    capacity: usize,
    lent: Lent,
    format: &[u8],
    record: &mut [u8],
) -> u32 {
    // SAFETY: as for `set_up`.
    unsafe {
        c::towungbe_call(
            state,
            block,
            capacity,
            lent.store.as_mut_ptr(),
            lent.store.len(),
            lent.queue.as_mut_ptr(),
            lent.queue.len(),
            lent.images.as_mut_ptr(),
            lent.images.len(),
            format.as_ptr(),
            format.len(),
            record.as_mut_ptr(),
            record.len(),
        )
    }
}

/// Where the record lies that L1 with option `C` reads. No call: nothing is changed.
pub fn committed_place(
    state: &State,
    capacity: usize,
    file: u8,
    isn: u16,
    store: &[u8],
    queue: &[Entry],
    images: &[u8],
) -> Place {
    let mut place = Place::default();
    // SAFETY: as for `set_up`; nothing but the place is written.
    unsafe {
        c::towungbe_committed_place(
            state,
            capacity,
            file,
            isn,
            store.as_ptr(),
            store.len(),
            queue.as_ptr(),
            queue.len(),
            images.as_ptr(),
            images.len(),
            &mut place,
        )
    }
    place
}

/// That record itself, a piece of the images or of the store; no bytes where there is none.
pub fn committed<'a>(
    state: &State,
    capacity: usize,
    file: u8,
    isn: u16,
    store: &'a [u8],
    queue: &[Entry],
    images: &'a [u8],
) -> &'a [u8] {
    let place = committed_place(state, capacity, file, isn, store, queue, images);
    let lies_in = match place.imaged {
        true => images,
        false => store,
    };
    &lies_in[place.start..place.start + place.length]
}

/// The bytes that a table's store needs; 0 for a table that set-up refuses.
pub fn store_size(table: &[u8]) -> usize {
    // SAFETY: the pointer is valid for the count, and nothing is written.
    unsafe { c::towungbe_store_size(table.as_ptr(), table.len()) }
}

/// The bytes that a table's images need for a capacity; 0 for a table or a capacity that set-up refuses.
pub fn image_size(table: &[u8], capacity: usize) -> usize {
    // SAFETY: the pointer is valid for the count, and nothing is written.
    unsafe { c::towungbe_image_size(table.as_ptr(), table.len(), capacity) }
}
