//! The list of calls that C makes: driver.c.

use crate::steps::Step;
use second::state::Answer;
use towungbe::raw::{Block, Entry, State};
use towungbe::{Buffers, Nucleus};

/// `bench_step` of driver.c.
#[repr(C)]
struct StepInC {
    block: Block,
    format: *const u8,
    format_length: usize,
    record: *mut u8,
    record_length: usize,
}

extern "C" {
    fn bench_run(
        state: *mut State,
        capacity: usize,
        store: *mut u8,
        store_length: usize,
        queue: *mut Entry,
        queue_length: usize,
        images: *mut u8,
        images_length: usize,
        steps: *mut StepInC,
        count: usize,
    ) -> usize;
}

/// A nucleus as a program in C has it.
pub struct NucleusInC {
    state: Box<State>,
    capacity: usize,
    buffers: Buffers,
}

impl NucleusInC {
    pub fn of(nucleus: &Nucleus) -> NucleusInC {
        NucleusInC {
            state: Box::new(*nucleus.state()),
            capacity: nucleus.capacity(),
            buffers: nucleus.buffers().clone(),
        }
    }

    pub fn store(&self) -> &[u8] {
        &self.buffers.store
    }
}

/// A list of calls as C has it; the pointers are into `records`, which are not touched otherwise while C runs.
pub struct ListInC {
    steps: Vec<StepInC>,
    records: Vec<Vec<u8>>,
}

impl ListInC {
    pub fn of(steps: &[Step]) -> ListInC {
        let mut records: Vec<Vec<u8>> = steps.iter().map(|step| step.record.clone()).collect();
        let in_c = |(step, record): (&Step, &mut Vec<u8>)| StepInC {
            block: Block::from(step.call),
            format: step.format.as_ptr(),
            format_length: step.format.len(),
            record: record.as_mut_ptr(),
            record_length: record.len(),
        };
        let steps = steps.iter().zip(&mut records).map(in_c).collect();
        ListInC { steps, records }
    }

    /// Gives how many calls answered 0.
    pub fn run(&mut self, nucleus: &mut NucleusInC) -> usize {
        let buffers = &mut nucleus.buffers;
        // SAFETY: every pointer is valid for the count beside it; formats are static, records are kept with the steps, and
        // no two of the buffers that are written overlap.
        unsafe {
            bench_run(
                &mut *nucleus.state,
                nucleus.capacity,
                buffers.store.as_mut_ptr(),
                buffers.store.len(),
                buffers.queue.as_mut_ptr(),
                buffers.queue.len(),
                buffers.images.as_mut_ptr(),
                buffers.images.len(),
                self.steps.as_mut_ptr(),
                self.steps.len(),
            )
        }
    }

    /// What each call answered and left in its record buffer.
    pub fn answers(&self) -> impl Iterator<Item = (Answer, &[u8])> {
        let answer = |block: &Block| Answer {
            response: block.response,
            isn: block.answered_isn,
            quantity: block.quantity,
            sequence: block.sequence,
        };
        let records = self.records.iter().map(Vec::as_slice);
        self.steps
            .iter()
            .map(move |step| answer(&step.block))
            .zip(records)
    }
}
