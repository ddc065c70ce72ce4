//! Calls to be measured, from a prepared nucleus on.

use crate::foreign::{ListInC, NucleusInC};
use crate::measure::{clock_cost, nanoseconds, Runner};
use crate::pair::Pair;
use crate::steps::Step;
use second::machine::Machine;
use second::state::{Answer, Call};
use std::hint::black_box;
use std::time::Instant;
use towungbe::Nucleus;

/// Calls of which the time counts, or which only prepare the next or undo the last.
#[derive(Clone)]
pub struct Phase {
    pub timed: bool,
    pub steps: Vec<Step>,
}

impl Phase {
    pub fn timed(steps: Vec<Step>) -> Phase {
        Phase { timed: true, steps }
    }

    pub fn untimed(steps: Vec<Step>) -> Phase {
        Phase {
            timed: false,
            steps,
        }
    }
}

/// Each round runs all phases on a copy of `start`. Their time is given for each of `units`.
pub struct Work {
    start: Pair,
    phases: Vec<Phase>,
    units: usize,
    clock_cost: f64,
}

impl Work {
    /// Runs the phases once on both implementations, which must agree; the timed calls, which are the units, must have
    /// this response and the others 0.
    pub fn new(start: &Pair, phases: Vec<Phase>, response: u16) -> Work {
        let mut pair = start.clone();
        for phase in &phases {
            let response = if phase.timed { response } else { 0 };
            pair.run(&phase.steps, response);
        }
        pair.compare();
        let timed = phases.iter().filter(|phase| phase.timed);
        Work {
            start: start.clone(),
            units: timed.map(|phase| phase.steps.len()).sum(),
            phases,
            clock_cost: clock_cost(),
        }
    }

    /// A call many times, which leaves all as it was.
    pub fn of_call(start: &Pair, step: Step, response: u16, times: usize) -> Work {
        Work::new(start, vec![Phase::timed(vec![step; times])], response)
    }

    /// Good calls over and over.
    pub fn of_cycle(start: &Pair, cycle: &[Phase], times: usize) -> Work {
        Work::new(start, vec![cycle; times].concat(), 0)
    }

    /// The proved library by the Rust crate.
    pub fn library(&self) -> Runner<'_> {
        let mut phases = self.phases.clone();
        Runner::new("library", move || {
            let mut nucleus = self.start.nucleus.clone();
            let timed = phases.iter_mut().map(|phase| {
                let steps = &mut phase.steps;
                (phase.timed, time(|| run_library(&mut nucleus, steps)))
            });
            self.per_unit(timed)
        })
    }

    /// The proved library, called by C; for work of one phase.
    pub fn library_in_c(&self) -> Runner<'_> {
        let mut list = ListInC::of(self.steps());
        Runner::new("library from C", move || {
            let mut nucleus = NucleusInC::of(&self.start.nucleus);
            let elapsed = time(|| list.run(&mut nucleus));
            self.per_unit([(true, elapsed)])
        })
    }

    pub fn second(&self) -> Runner<'_> {
        let steps = |phase: &Phase| phase.steps.iter().map(SecondStep::of).collect();
        let mut phases: Vec<(bool, Vec<SecondStep>)> = self
            .phases
            .iter()
            .map(|phase| (phase.timed, steps(phase)))
            .collect();
        Runner::new("second", move || {
            let mut machine = self.start.machine.clone();
            let timed = phases
                .iter_mut()
                .map(|(timed, steps)| (*timed, time(|| run_second(&mut machine, steps))));
            self.per_unit(timed)
        })
    }

    /// The calls of work of one phase.
    pub fn steps(&self) -> &[Step] {
        match self.phases.as_slice() {
            [phase] => &phase.steps,
            phases => panic!("{} phases, where one is wanted", phases.len()),
        }
    }

    pub fn start(&self) -> &Pair {
        &self.start
    }

    fn per_unit(&self, phases: impl IntoIterator<Item = (bool, f64)>) -> f64 {
        let timed = phases.into_iter().filter(|(timed, _)| *timed);
        let total: f64 = timed.map(|(_, elapsed)| elapsed - self.clock_cost).sum();
        total / self.units as f64
    }

    /// C makes the calls of work of one phase; answers, record buffers and store must be as the library's by Rust.
    pub fn compare_in_c(&self, answers: &[Answer]) {
        let mut expected = self.start.nucleus.clone();
        let mut nucleus = NucleusInC::of(&expected);
        let mut list = ListInC::of(self.steps());
        list.run(&mut nucleus);
        for ((step, answer), (found, record)) in
            self.steps().iter().zip(answers).zip(list.answers())
        {
            assert_eq!(found, *answer, "{:?}: C, then Rust", step.call);
            let mut expected_record = step.record.clone();
            expected.call(&step.call, step.format, &mut expected_record);
            assert_eq!(record, expected_record, "{:?}: record buffers", step.call);
        }
        let same_store = nucleus.store() == expected.buffers().store;
        assert!(same_store, "the stores differ: C and Rust");
    }
}

/// The nanoseconds of a run.
pub fn time(run: impl FnOnce() -> usize) -> f64 {
    let start = Instant::now();
    black_box(run());
    nanoseconds(start)
}

/// Gives how many calls answered 0.
fn run_library(nucleus: &mut Nucleus, steps: &mut [Step]) -> usize {
    let mut good = 0;
    for step in steps {
        let answer = nucleus.call(&step.call, step.format, &mut step.record);
        good += usize::from(answer.response.is_good());
    }
    good
}

/// A call as the second implementation has it.
struct SecondStep {
    call: Call,
    format: &'static [u8],
    record: Vec<u8>,
}

impl SecondStep {
    fn of(step: &Step) -> SecondStep {
        SecondStep {
            call: step.second(),
            format: step.format,
            record: step.record.clone(),
        }
    }
}

/// Gives how many calls answered 0.
fn run_second(machine: &mut Machine, steps: &mut [SecondStep]) -> usize {
    let mut good = 0;
    for step in steps {
        let answer = machine.call(&step.call, step.format, &mut step.record);
        good += usize::from(answer.response == 0);
    }
    good
}
