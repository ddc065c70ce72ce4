//! A second implementation of the record nucleus of document 01, written from that document alone.
//!
//! The modules follow the document's order: the definition table, fields and their stored form, the store, the hold
//! queue, one call (state, response table, commands), the journal of requirement 3, and the house call list. The rest
//! are tools for tests: a nucleus that owns its buffers, random call lists, their comparison with the journal, and
//! the readers of vector files and of house call lists.

pub mod aimed;
pub mod any_state;
pub mod arguments;
pub mod cases;
pub mod committed;
pub mod compare;
pub mod context;
pub mod definition;
pub mod fields;
pub mod hold;
pub mod house;
pub mod house_lists;
pub mod journal;
pub mod line;
pub mod list_lines;
pub mod machine;
pub mod nucleus;
pub mod random;
pub mod reference_lists;
pub mod responses;
pub mod state;
pub mod store;
pub mod terms;
pub mod vectors;
pub mod waiting;
