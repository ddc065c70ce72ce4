//! The proved nucleus, by its static library, beside the second implementation: the same random lists, states and
//! set-ups through both, and everything compared that document 01 does not leave free.

pub mod compare;
pub mod run;
pub mod twin;

pub use run::{run, Counts};
