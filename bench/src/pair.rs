//! A nucleus in both implementations. What is measured is first run here, and nothing may differ.

use crate::steps::{household, Step};
use beside::twin;
use second::machine::Machine;
use second::state::Answer;
use towungbe::{Command, Nucleus};

#[derive(Clone)]
pub struct Pair {
    pub nucleus: Nucleus,
    pub machine: Machine,
}

impl Pair {
    pub fn new(table: &[u8], capacity: u16) -> Pair {
        let nucleus = Nucleus::new(table, usize::from(capacity));
        let machine = Machine::new(table, u32::from(capacity), 0);
        match (nucleus, machine) {
            (Ok(nucleus), Ok(machine)) => Pair { nucleus, machine },
            (nucleus, machine) => panic!(
                "a set-up is refused: {:?}, second {:?}",
                nucleus.err(),
                machine.err()
            ),
        }
    }

    /// Households in each file, at ISN 1 and on; `code` gives the ring code of a number, from 0 on.
    pub fn with_households(
        table: &[u8],
        files: u8,
        records: u16,
        code: fn(u64) -> [u8; 8],
    ) -> Pair {
        let mut pair = Pair::new(table, 64);
        for file in 1..=files {
            for number in 0..u64::from(records) {
                let add = Step::add(1, file, household(code(number), number));
                pair.run_good(&[add, Step::end(Command::Et, 1)]);
            }
        }
        pair.compare();
        pair
    }

    /// Makes the calls on both and gives what they answered, which must be the same, with this response.
    pub fn run(&mut self, steps: &[Step], response: u16) -> Vec<Answer> {
        let answers: Vec<Answer> = steps.iter().map(|step| self.step(step)).collect();
        for (step, answer) in steps.iter().zip(&answers) {
            assert_eq!(answer.response, response, "the response to {:?}", step.call);
        }
        answers
    }

    pub fn run_good(&mut self, steps: &[Step]) -> Vec<Answer> {
        self.run(steps, 0)
    }

    fn step(&mut self, step: &Step) -> Answer {
        let (mut record, mut expected_record) = (step.record.clone(), step.record.clone());
        let answer = self.nucleus.call(&step.call, step.format, &mut record);
        let expected = self
            .machine
            .call(&step.second(), step.format, &mut expected_record);
        let answer = Answer {
            response: answer.response.number(),
            isn: answer.isn,
            quantity: answer.quantity,
            sequence: answer.sequence,
        };
        assert_eq!(answer, expected, "{:?}: library, then second", step.call);
        assert_eq!(record, expected_record, "{:?}: record buffers", step.call);
        answer
    }

    /// Store and entries must be the same.
    pub fn compare(&self) {
        let same_store = self.nucleus.buffers().store == self.machine.store;
        assert!(same_store, "the stores differ");
        let expected = self.machine.entries().iter().map(twin::entry);
        assert!(
            self.nucleus.entries().iter().copied().eq(expected),
            "the entries differ"
        );
    }
}
