//! The two implementations that a list can be run on.

use call_lists::{Answer, Call, List, Nucleus};
use second::hold;
use second::machine::Machine;
use towungbe::raw::{Entry, Waiter};
use towungbe::Buffers;

/// A nucleus that says who holds and who waits.
pub trait Implementation: Nucleus {
    /// The user who holds an ISN of a file.
    fn holder(&self, file: u8, isn: u16) -> Option<u8>;

    /// Who waits, the longest first.
    fn waiters(&self) -> Vec<Waiter>;
}

/// Sets up the nucleus of a list; the error is the response.
pub fn set_up(list: &List, second: bool) -> Result<Box<dyn Implementation>, u16> {
    match second {
        true => Ok(Box::new(second_set_up(list)?)),
        false => Ok(Box::new(Proved(proved_set_up(list)?))),
    }
}

fn second_set_up(list: &List) -> Result<Machine, u16> {
    let List {
        table, capacity, ..
    } = list;
    match list.lent {
        Some(lent) => Machine::with_sizes(
            table,
            *capacity,
            lent.store,
            lent.queue,
            lent.images,
            lent.fill,
        ),
        None => Machine::new(table, *capacity, 0),
    }
}

impl Implementation for Machine {
    fn holder(&self, file: u8, isn: u16) -> Option<u8> {
        hold::holder(self.entries(), file, isn)
    }

    fn waiters(&self) -> Vec<Waiter> {
        let words = self.state.line.waiters().map(|waiter| waiter.word());
        words.map(Waiter::from).collect()
    }
}

/// The proved nucleus, as lists see it.
struct Proved(towungbe::Nucleus);

fn proved_set_up(list: &List) -> Result<towungbe::Nucleus, u16> {
    let capacity = list.capacity as usize;
    let buffers = match list.lent {
        Some(lent) => Buffers {
            store: vec![lent.fill; lent.store],
            queue: vec![Entry::default(); lent.queue],
            images: vec![lent.fill; lent.images],
        },
        None => Buffers::for_table(&list.table, capacity),
    };
    towungbe::Nucleus::with_buffers(&list.table, capacity, buffers)
        .map_err(|response| response.number())
}

impl Nucleus for Proved {
    fn answer(&mut self, call: &Call, record: &mut [u8]) -> Answer {
        let arguments = towungbe::Call {
            command: call.command,
            option: call.option,
            user: call.user,
            file: call.file,
            isn: call.isn,
            limit: call.limit,
            clock: call.clock,
        };
        let answer = self.0.call(&arguments, &call.format, record);
        Answer {
            response: answer.response.number(),
            isn: answer.isn,
            quantity: answer.quantity,
            sequence: answer.sequence,
        }
    }
}

impl Implementation for Proved {
    fn holder(&self, file: u8, isn: u16) -> Option<u8> {
        let mut entries = self.0.entries().iter();
        let entry = entries.find(|entry| (entry.file, entry.isn) == (file, isn));
        entry.map(|entry| entry.user)
    }

    fn waiters(&self) -> Vec<Waiter> {
        self.0.waiters().collect()
    }
}
