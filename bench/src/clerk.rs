//! The clerk's work: 30 users in turn, a transaction each, on files of households.

use crate::measure::{measure, Times};
use crate::pair::Pair;
use crate::report;
use crate::sqlite::Database;
use crate::steps::{feed_account, household, ring_code, Step};
use crate::tables;
use crate::work::{Phase, Work};
use second::random::Random;
use towungbe::{Command, Nucleus};

const USERS: usize = 30;
const TRANSACTIONS: usize = 600;
/// ISNs without a record in each file, for N1.
const FREE: u16 = 32;
const SEED: u64 = 1;

/// Times of one call of the list, by library, library from C, second and SQLite.
pub struct Clerk {
    pub files: u8,
    pub records: u16,
    pub times: Vec<Times>,
}

/// By files, and records of each.
pub fn measure_all(sizes: &[(u8, u16)], rounds: usize) -> Vec<Clerk> {
    let lists = sizes.iter().map(|(files, records)| list(*files, *records));
    let lists: Vec<(Work, Database)> = lists.collect();
    let runners = lists.iter().map(|(work, database)| {
        vec![
            work.library(),
            work.library_in_c(),
            work.second(),
            database.runner(),
        ]
    });
    let times = measure(runners.collect(), rounds);
    let clerk = |((files, records), times): (&(u8, u16), Vec<Times>)| Clerk {
        files: *files,
        records: *records,
        times,
    };
    sizes.iter().zip(times).map(clerk).collect()
}

/// The list, run by all, which agree.
fn list(files: u8, records: u16) -> (Work, Database) {
    let table = tables::households(files, records + FREE);
    let start = Pair::with_households(&table, files, records, ring_code);
    let steps = Maker::new(&start.nucleus, files, records).list();
    let answers = start.clone().run_good(&steps);
    let work = Work::new(&start, vec![Phase::timed(steps)], 0);
    work.compare_in_c(&answers);
    let database = Database::new(&work, files, &answers);
    database.compare(&work);
    (work, database)
}

impl Clerk {
    pub fn name(&self) -> String {
        let records = report::grouped(f64::from(self.records));
        match self.files {
            1 => format!("1 file, {records} records"),
            files => format!("{files} files, {records} records each"),
        }
    }
}

/// Makes the list beside a nucleus that runs it: N1's ISNs are known from there.
struct Maker {
    nucleus: Nucleus,
    random: Random,
    /// The ISNs with a record, file by file.
    recorded: Vec<Vec<u16>>,
    /// The number of the last ring code; no record has had one above it.
    last_code: u64,
    steps: Vec<Step>,
}

impl Maker {
    fn new(nucleus: &Nucleus, files: u8, records: u16) -> Maker {
        Maker {
            nucleus: nucleus.clone(),
            random: Random::new(SEED),
            recorded: vec![(1..=records).collect(); usize::from(files)],
            last_code: u64::from(records),
            steps: Vec::new(),
        }
    }

    /// Of ten transactions in turn one is backed out and one adds and empties; which, moves on with each turn of the users.
    fn list(mut self) -> Vec<Step> {
        for turn in 0..TRANSACTIONS {
            let user = turn % USERS;
            let file = user % self.recorded.len();
            let clock = turn as u32;
            let (user, file) = (user as u8 + 1, file as u8 + 1);
            match (turn + turn / USERS) % 10 {
                0 => self.change(user, file, clock, Command::Bt),
                5 => self.replace(user, file, clock),
                _ => self.change(user, file, clock, Command::Et),
            }
        }
        self.steps
    }

    /// L4 of a household, A1 of ring code and feed account, and the end.
    fn change(&mut self, user: u8, file: u8, clock: u32, end: Command) {
        let isns = &self.recorded[usize::from(file) - 1];
        let isn = self.random.pick(isns);
        let number = self.code_number();
        let mut record = ring_code(number).to_vec();
        record.extend(feed_account(number));
        self.make(Step::read(Command::L4, user, file, isn).at(clock));
        self.make(Step::change(user, file, isn, tables::CHANGED, record).at(clock));
        self.make(Step::end(end, user).at(clock));
    }

    /// N1 of a household, E1 of another, ET.
    fn replace(&mut self, user: u8, file: u8, clock: u32) {
        let number = self.code_number();
        let record = household(ring_code(number), number);
        let added = self.make(Step::add(user, file, record).at(clock));
        let isns = &mut self.recorded[usize::from(file) - 1];
        let place = self.random.below(isns.len() as u64) as usize;
        let emptied = std::mem::replace(&mut isns[place], added);
        self.make(Step::empty(user, file, emptied).at(clock));
        self.make(Step::end(Command::Et, user).at(clock));
    }

    fn code_number(&mut self) -> u64 {
        self.last_code += 1;
        self.last_code
    }

    /// Gives the ISN answered.
    fn make(&mut self, step: Step) -> u16 {
        let mut record = step.record.clone();
        let answer = self.nucleus.call(&step.call, step.format, &mut record);
        self.steps.push(step);
        answer.isn
    }
}
