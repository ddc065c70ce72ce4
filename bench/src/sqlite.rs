//! The clerk's work on SQLite in memory, with the same meaning: a transaction is one of SQLite's, begun at the first call
//! with BEGIN IMMEDIATE, and a file is a table with the ISN as its key and a unique index on the ring code.

use crate::foreign::{Connection, Statement};
use crate::measure::Runner;
use crate::steps::Step;
use crate::tables::{CHANGED_LENGTHS, LENGTHS, WIDTH};
use crate::work::{time, Work};
use second::journal::Records;
use second::state::Answer;

/// The work's list for SQLite, and the records that it begins with.
pub struct Database {
    files: u8,
    start: Records,
    steps: Vec<SqlStep>,
}

#[derive(Clone, Copy)]
enum Kind {
    Select,
    Update,
    Insert,
    Delete,
    Commit,
    Rollback,
}

/// A call for SQLite. It is given N1's ISN, which spares it the search.
#[derive(Clone)]
struct SqlStep {
    kind: Kind,
    file: usize,
    isn: u16,
    record: Vec<u8>,
}

impl SqlStep {
    fn of(step: &Step, answer: &Answer) -> SqlStep {
        let kind = match &step.call.command {
            b"L4" => Kind::Select,
            b"A1" => Kind::Update,
            b"N1" => Kind::Insert,
            b"E1" => Kind::Delete,
            b"ET" => Kind::Commit,
            b"BT" => Kind::Rollback,
            other => panic!("{other:?} is not a clerk's"),
        };
        SqlStep {
            kind,
            file: usize::from(step.call.file),
            isn: answer.isn,
            record: step.record.clone(),
        }
    }
}

impl Database {
    pub fn new(work: &Work, files: u8, answers: &[Answer]) -> Database {
        let steps = work.steps().iter().zip(answers);
        Database {
            files,
            start: work.start().machine.records(),
            steps: steps
                .map(|(step, answer)| SqlStep::of(step, answer))
                .collect(),
        }
    }

    /// The list reads the same, and leaves the same records, as on the second implementation.
    pub fn compare(&self, work: &Work) {
        let mut session = self.session();
        let mut steps = self.steps.clone();
        session.run(&mut steps);
        let mut machine = work.start().machine.clone();
        for (step, sql_step) in work.steps().iter().zip(&steps) {
            let mut record = step.record.clone();
            machine.call(&step.second(), step.format, &mut record);
            assert_eq!(
                sql_step.record, record,
                "{:?}: SQLite, then second",
                step.call
            );
        }
        let max_isn = machine.state.definition.files[0].max_isn;
        let (found, expected) = (session.records(max_isn), machine.records());
        for key in found.keys().chain(expected.keys()) {
            let (found, expected) = (found.get(key), expected.get(key));
            assert_eq!(found, expected, "file and ISN {key:?}: SQLite, then second");
        }
    }

    pub fn runner(&self) -> Runner<'_> {
        let mut steps = self.steps.clone();
        Runner::new("SQLite", move || {
            let mut session = self.session();
            time(|| session.run(&mut steps)) / self.steps.len() as f64
        })
    }

    /// A database with the records of the start.
    fn session(&self) -> Session {
        let connection = Connection::in_memory();
        let files = (1..=self.files).map(|file| FileStatements::new(&connection, file));
        let mut session = Session {
            files: files.collect(),
            begin: connection.prepare("BEGIN IMMEDIATE"),
            commit: connection.prepare("COMMIT"),
            rollback: connection.prepare("ROLLBACK"),
        };
        session.begin.run();
        for ((file, isn), record) in &self.start {
            let insert = &mut session.files[usize::from(*file) - 1].insert;
            insert.run_with(*isn, &parts(record, LENGTHS), &mut []);
        }
        session.commit.run();
        session
    }
}

struct FileStatements {
    select: Statement,
    update: Statement,
    insert: Statement,
    delete: Statement,
}

impl FileStatements {
    fn new(connection: &Connection, file: u8) -> FileStatements {
        let prepare = |sql: &str| connection.prepare(&sql.replace("file", &format!("file{file}")));
        prepare("CREATE TABLE file (isn INTEGER PRIMARY KEY, rc BLOB NOT NULL, hh BLOB NOT NULL, fa BLOB NOT NULL, mw BLOB NOT NULL, rd BLOB NOT NULL)").run();
        prepare("CREATE UNIQUE INDEX file_rc ON file (rc)").run();
        FileStatements {
            select: prepare("SELECT rc, hh, fa, mw, rd FROM file WHERE isn = ?1"),
            update: prepare("UPDATE file SET rc = ?2, fa = ?3 WHERE isn = ?1"),
            insert: prepare("INSERT INTO file VALUES (?1, ?2, ?3, ?4, ?5, ?6)"),
            delete: prepare("DELETE FROM file WHERE isn = ?1"),
        }
    }
}

struct Session {
    files: Vec<FileStatements>,
    begin: Statement,
    commit: Statement,
    rollback: Statement,
}

impl Session {
    /// Gives how many steps were made. Any that SQLite refuses is a panic.
    fn run(&mut self, steps: &mut [SqlStep]) -> usize {
        let mut open = false;
        for step in &mut *steps {
            if !open {
                self.begin.run();
            }
            open = !matches!(step.kind, Kind::Commit | Kind::Rollback);
            self.step(step);
        }
        steps.len()
    }

    /// All records, of ISNs up to the highest.
    fn records(&mut self, max_isn: u16) -> Records {
        let mut records = Records::new();
        for (file, statements) in (1..).zip(&mut self.files) {
            for isn in 1..=max_isn {
                let mut record = vec![0; WIDTH];
                if statements.select.run_with(isn, &[], &mut record) > 0 {
                    records.insert((file, isn), record);
                }
            }
        }
        records
    }

    fn step(&mut self, step: &mut SqlStep) {
        let SqlStep { file, isn, .. } = *step;
        match step.kind {
            Kind::Commit => self.commit.run(),
            Kind::Rollback => self.rollback.run(),
            kind => {
                let statements = &mut self.files[file - 1];
                let record = &mut step.record;
                match kind {
                    Kind::Select => statements.select.run_with(isn, &[], record),
                    Kind::Update => {
                        let values = parts(record, CHANGED_LENGTHS);
                        statements.update.run_with(isn, &values, &mut [])
                    }
                    Kind::Insert => {
                        let values = parts(record, LENGTHS);
                        statements.insert.run_with(isn, &values, &mut [])
                    }
                    _ => statements.delete.run_with(isn, &[], &mut []),
                };
            }
        }
    }
}

/// The values of a record buffer, by their lengths.
fn parts<const N: usize>(record: &[u8], lengths: [usize; N]) -> [&[u8]; N] {
    let mut rest = record;
    lengths.map(|length| {
        let (value, behind) = rest.split_at(length);
        rest = behind;
        value
    })
}
