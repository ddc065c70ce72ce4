//! A nucleus that owns its buffers.

use crate::raw::{self, Block, Entry, State, Waiter};
use crate::{Answer, Call, Response};

/// A record nucleus with its store, hold queue and images.
#[derive(Clone, Debug)]
pub struct Nucleus {
    state: Box<State>,
    capacity: usize,
    buffers: Buffers,
}

/// The buffers that a nucleus works on. Bytes and entries past the sizes that it needs are never touched.
#[derive(Clone, Debug, Default, PartialEq, Eq)]
pub struct Buffers {
    pub store: Vec<u8>,
    pub queue: Vec<Entry>,
    pub images: Vec<u8>,
}

impl Buffers {
    /// Buffers that are just large enough for a table and a capacity; all bytes 0. Where the capacity is not 1 to 256 the
    /// queue and the images are empty, for no set-up takes it.
    pub fn for_table(table: &[u8], capacity: usize) -> Buffers {
        let entries = match capacity {
            1..=raw::MAX_CAPACITY => capacity,
            _ => 0,
        };
        Buffers {
            store: vec![0; raw::store_size(table)],
            queue: vec![Entry::default(); entries],
            images: vec![0; raw::image_size(table, capacity)],
        }
    }

    fn lent(&mut self) -> raw::Lent<'_> {
        raw::Lent {
            store: &mut self.store,
            queue: &mut self.queue,
            images: &mut self.images,
        }
    }
}

impl Nucleus {
    /// A fresh nucleus for a definition table, with room for `capacity` held records. The error is
    /// [`Response::TableInvalid`], or [`Response::TooShort`] where the capacity is not 1 to 256.
    ///
    /// ```
    /// use towungbe::{Nucleus, Response};
    /// let table = b"\x01\x01\x00\x03\x02RC\x01AU\x02HH\x02A \x00";
    /// assert!(Nucleus::new(table, 64).is_ok());
    /// assert_eq!(Nucleus::new(b"nonsense", 64).unwrap_err(), Response::TableInvalid);
    /// assert_eq!(Nucleus::new(table, 0).unwrap_err(), Response::TooShort);
    /// ```
    pub fn new(table: &[u8], capacity: usize) -> Result<Nucleus, Response> {
        Nucleus::with_buffers(table, capacity, Buffers::for_table(table, capacity))
    }

    /// The same in buffers of the caller's. Set-up writes 0 in every first byte of an ISN and nothing else.
    pub fn with_buffers(
        table: &[u8],
        capacity: usize,
        mut buffers: Buffers,
    ) -> Result<Nucleus, Response> {
        let mut state = Box::<State>::default();
        match known(raw::set_up(&mut state, capacity, table, buffers.lent())) {
            Response::Good => Ok(Nucleus {
                state,
                capacity,
                buffers,
            }),
            refused => Err(refused),
        }
    }

    /// Makes one call. The record buffer brings values or ET data; L1, L4 and RE write into its front, `quantity` bytes.
    ///
    /// The format buffer names fields, as in `RC,HH.`; `.` alone names none:
    ///
    /// ```
    /// # use towungbe::{Call, Command, Nucleus, Response};
    /// # let mut nucleus = Nucleus::new(b"\x01\x01\x00\x03\x02RC\x01AU\x00", 64)?;
    /// let hold = Call::new(Command::L4, 1).with_file(1).with_isn(2);
    /// assert_eq!(nucleus.call(&hold, b".", &mut []).response, Response::IsnInvalid);
    /// nucleus.call(&Call::new(Command::N2, 1).with_file(1).with_isn(2), b"RC.", &mut b"2".to_vec());
    /// let held = nucleus.call(&hold, b".", &mut []);
    /// assert_eq!((held.response, held.isn, held.quantity), (Response::Good, 2, 0));
    /// # Ok::<(), Response>(())
    /// ```
    pub fn call(&mut self, call: &Call, format: &[u8], record: &mut [u8]) -> Answer {
        let mut block = Block::from(*call);
        let response = raw::call(
            &mut self.state,
            &mut block,
            self.capacity,
            self.buffers.lent(),
            format,
            record,
        );
        Answer {
            response: known(response),
            isn: block.answered_isn,
            quantity: block.quantity,
            sequence: block.sequence,
        }
    }

    /// The whole record at an ISN as ended transactions left it, which is what L1 with [`CommandOption::Committed`]
    /// (`C`) reads, without a copy: the bytes lie in the images or in the store. No bytes where there is no such record.
    ///
    /// It is no call: it has no user and no clock, and changes nothing.
    ///
    /// ```
    /// # use towungbe::{Call, Command, CommandOption, Nucleus, Response};
    /// # let mut nucleus = Nucleus::new(b"\x01\x01\x00\x03\x02RC\x01AU\x00", 64)?;
    /// let add = Call::new(Command::N1, 1).with_file(1);
    /// nucleus.call(&add, b"RC.", &mut b"2".to_vec());
    /// assert_eq!(nucleus.committed(1, 1), b"");
    /// nucleus.call(&Call::new(Command::Et, 1), b"", &mut []);
    /// assert_eq!(nucleus.committed(1, 1), b"2");
    /// let change = Call::new(Command::A1, 1).with_option(CommandOption::Hold).with_file(1).with_isn(1);
    /// nucleus.call(&change, b"RC.", &mut b"3".to_vec());
    /// assert_eq!(nucleus.committed(1, 1), b"2");
    /// # Ok::<(), Response>(())
    /// ```
    ///
    /// While the record is in use no call can be made, for a call may change its bytes or move them:
    ///
    /// ```compile_fail,E0502
    /// # use towungbe::{Call, Command, Nucleus, Response};
    /// # let mut nucleus = Nucleus::new(b"\x01\x01\x00\x03\x02RC\x01AU\x00", 64)?;
    /// let record = nucleus.committed(1, 1);
    /// nucleus.call(&Call::new(Command::Et, 1), b"", &mut []);
    /// println!("{record:?}");
    /// # Ok::<(), Response>(())
    /// ```
    ///
    /// [`CommandOption::Committed`]: crate::CommandOption::Committed
    pub fn committed(&self, file: u8, isn: u16) -> &[u8] {
        raw::committed(
            &self.state,
            self.capacity,
            file,
            isn,
            &self.buffers.store,
            &self.buffers.queue,
            &self.buffers.images,
        )
    }

    /// The entries of the hold queue, oldest first.
    pub fn entries(&self) -> &[Entry] {
        let queue = &self.buffers.queue;
        &queue[..self.state.entries.min(queue.len())]
    }

    /// Who waits for records, the longest first. The line of a record is those who wait for it.
    ///
    /// [`CommandOption::Wait`] (`W`) of HI and L4 joins it where another user holds the record, and the same call again keeps
    /// the place. When the holder lets go, the first in line has the hold:
    ///
    /// ```
    /// # use towungbe::{Call, Command, CommandOption, Nucleus, Response};
    /// # let mut nucleus = Nucleus::new(b"\x01\x01\x00\x03\x02RC\x01AU\x00", 64)?;
    /// let hold = |user| Call::new(Command::Hi, user).with_option(CommandOption::Wait).with_file(1).with_isn(2);
    /// assert_eq!(nucleus.call(&hold(1), b"", &mut []).response, Response::Good);
    /// assert_eq!(nucleus.call(&hold(3), b"", &mut []).response, Response::Waiting);
    /// assert_eq!(nucleus.call(&hold(2), b"", &mut []).response, Response::Waiting);
    /// assert!(nucleus.waiters().map(|waiter| waiter.user).eq([3, 2]));
    /// nucleus.call(&Call::new(Command::Et, 1), b"", &mut []);
    /// assert_eq!(nucleus.call(&hold(2), b"", &mut []).response, Response::Waiting);
    /// assert_eq!(nucleus.call(&hold(3), b"", &mut []).response, Response::Good);
    /// # Ok::<(), Response>(())
    /// ```
    ///
    /// Any other call of a waiter leaves the line. The hold opens a transaction, where he has none, and his time limit runs
    /// from then on: whoever does not ask again in time is backed out, and the next in line has the hold.
    ///
    /// [`CommandOption::Wait`]: crate::CommandOption::Wait
    pub fn waiters(&self) -> impl Iterator<Item = Waiter> + '_ {
        self.state.wait_queue.waiters()
    }

    /// What is kept between calls beside the buffers.
    pub fn state(&self) -> &State {
        &self.state
    }

    pub fn capacity(&self) -> usize {
        self.capacity
    }

    pub fn buffers(&self) -> &Buffers {
        &self.buffers
    }
}

/// The library has no other responses than document 01.
fn known(number: u32) -> Response {
    let response = u16::try_from(number).ok().and_then(Response::from_number);
    match response {
        Some(response) => response,
        None => panic!("libtowungbe.a answers {number}, which is no response: it is not the library of this crate"),
    }
}
