//! C and SQLite, made safe: the one module with `unsafe` code.

mod driver;
mod sqlite;

pub use driver::{ListInC, NucleusInC};
pub use sqlite::{version as sqlite_version, Connection, Statement};
