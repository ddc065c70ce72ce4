//! A nucleus that owns the buffers it lends, for programs and tests.

use crate::committed;
use crate::definition;
use crate::hold::Entry;
use crate::journal::Records;
use crate::nucleus;
use crate::state::{Answer, Call, State, MAX_CAPACITY};
use crate::store;

#[derive(Clone, Debug, PartialEq, Eq)]
pub struct Machine {
    pub state: State,
    pub capacity: u32,
    pub store: Vec<u8>,
    pub queue: Vec<Entry>,
    pub images: Vec<u8>,
}

impl Machine {
    /// Sets up with buffers that are just large enough, all bytes `fill`; none are made for a capacity that is refused.
    pub fn new(table: &[u8], capacity: u32, fill: u8) -> Result<Machine, u16> {
        let definition = definition::read_table(table).ok_or(10u16)?;
        if capacity > MAX_CAPACITY {
            return Err(11);
        }
        let image_length = definition.greatest_record_length();
        Machine::with_sizes(
            table,
            capacity,
            store::store_size(&definition),
            capacity as usize,
            capacity as usize * image_length,
            fill,
        )
    }

    /// Sets up with buffers of these lengths, all bytes `fill`.
    pub fn with_sizes(
        table: &[u8],
        capacity: u32,
        store: usize,
        queue: usize,
        images: usize,
        fill: u8,
    ) -> Result<Machine, u16> {
        let mut store = vec![fill; store];
        let mut queue = vec![Entry::default(); queue];
        let mut images = vec![fill; images];
        let state = nucleus::set_up(table, capacity, &mut store, &mut queue, &mut images)?;
        Ok(Machine {
            state,
            capacity,
            store,
            queue,
            images,
        })
    }

    pub fn call(&mut self, call: &Call, format: &[u8], record: &mut [u8]) -> Answer {
        nucleus::call(
            &mut self.state,
            self.capacity,
            &mut self.store,
            &mut self.queue,
            &mut self.images,
            call,
            format,
            record,
        )
    }

    /// The record at an ISN as ended transactions left it, uncopied; no bytes where there is none.
    pub fn committed(&self, file: u8, isn: u16) -> &[u8] {
        committed::part(
            &self.state,
            self.capacity,
            file,
            isn,
            &self.store,
            &self.queue,
            &self.images,
        )
    }

    /// The entries in use, of a state that is well made.
    pub fn entries(&self) -> &[Entry] {
        &self.queue[..self.state.entries as usize]
    }

    /// The users in a transaction, rising.
    pub fn in_transaction(&self) -> Vec<u8> {
        (1u8..)
            .zip(&self.state.users)
            .filter(|(_, user)| user.in_transaction)
            .map(|(number, _)| number)
            .collect()
    }

    /// The records of all files.
    pub fn records(&self) -> Records {
        let definition = &self.state.definition;
        let mut records = Records::new();
        for (index, file) in definition.used_files().iter().enumerate() {
            for isn in 1..=file.max_isn {
                if store::has_record(definition, &self.store, index, isn) {
                    let content = store::record(definition, &self.store, index, isn);
                    records.insert((file.number, isn), content.to_vec());
                }
            }
        }
        records
    }
}
