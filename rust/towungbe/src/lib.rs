//! The proved record nucleus for Rust programs: a safe crate over its static library.
//!
//! `tools/staticlib`, at the top of the repository, makes the library; building this crate links it. What the
//! nucleus does is document 01's; that it does so for every input and every list of calls is proved. What is not proved is
//! this crate: it passes slices on as pointers and lengths, and numbers back as [`Response`].
//!
//! The worked example of document 01, for two users:
//!
//! ```
//! use towungbe::{Call, Command, CommandOption, Nucleus, Response};
//!
//! // File 1, highest ISN 3: RC, one byte, unique; HH, two bytes.
//! let table = b"\x01\x01\x00\x03\x02RC\x01AU\x02HH\x02A \x00";
//! let mut nucleus = Nucleus::new(table, 64)?;
//!
//! // User 1 adds a record and ends; then he changes its ring pattern and does not end.
//! let add = Call::new(Command::N1, 1).with_file(1);
//! assert_eq!(nucleus.call(&add, b"RC,HH.", &mut b"2AB".to_vec()).isn, 1);
//! assert_eq!(nucleus.call(&Call::new(Command::Et, 1), b"", &mut []).sequence, 1);
//! let change = Call::new(Command::A1, 1).with_option(CommandOption::Hold).with_file(1).with_isn(1);
//! assert!(nucleus.call(&change, b"RC.", &mut b"3".to_vec()).response.is_good());
//!
//! // User 2 cannot have the pattern that user 1 gave up, nor hold his record.
//! let add = Call::new(Command::N1, 2).with_file(1);
//! let refused = nucleus.call(&add, b"RC,HH.", &mut b"2CD".to_vec());
//! assert_eq!(refused.response, Response::ValueTaken);
//! let hold = Call::new(Command::L4, 2).with_file(1).with_isn(1);
//! assert_eq!(nucleus.call(&hold, b"RC.", &mut [0]).response.number(), 145);
//!
//! // User 1 backs out, and the record is as it was.
//! assert_eq!(nucleus.call(&Call::new(Command::Bt, 1), b"", &mut []).quantity, 1);
//! let mut record = [0; 3];
//! let read = Call::new(Command::L1, 2).with_file(1).with_isn(1);
//! assert_eq!(nucleus.call(&read, b"RC,HH.", &mut record).quantity, 3);
//! assert_eq!(&record, b"2AB");
//! # Ok::<(), Response>(())
//! ```
//!
//! A call that is refused says why:
//!
//! ```
//! # use towungbe::{Call, Command, Nucleus, Response};
//! # let mut nucleus = Nucleus::new(b"\x01\x01\x00\x03\x02RC\x01AU\x00", 64)?;
//! let release = Call::new(Command::Ri, 1).with_file(1).with_isn(2);
//! let refused = nucleus.call(&release, b"", &mut []);
//! assert_eq!(refused.response.to_string(), "144: The user does not hold the ISN.");
//! # Ok::<(), Response>(())
//! ```

#![deny(unsafe_code)]

mod call;
mod nucleus;
#[allow(unsafe_code)]
pub mod raw;
mod response;

pub use call::{Answer, Call, Command, CommandOption};
pub use nucleus::{Buffers, Nucleus};
pub use response::Response;
