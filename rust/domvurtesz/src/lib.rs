//! The proved library for Rust. A [`Table`] and a [`State`] may be handed over in any condition; every
//! question is answered or refused as docs/RULES.md says. Nothing is decided on this side of the link.
//!
//! ```
//! use domvurtesz::{Kind, Location, Table, Verdict};
//!
//! let mut table = Table { version: 1, queues: 1, period: 4, locations: 1, ..Table::default() };
//! table.location[0] = Location { queue: 1, ticks: 3, high: 65_535, ..Location::default() };
//! assert_eq!(table.judge().unwrap_err().kind, Kind::Period);
//! table.location[0].ticks = 4;
//! assert_eq!(table.least(1, 10), Ok(10));
//! assert_eq!(table.verdict(1), Ok(Verdict::Meets));
//! ```

pub mod answers;
mod ffi;
mod record;
mod refusal;
mod runner;
mod table;
mod windows;

pub use record::{field, read};
pub use refusal::{Kind, Refusal};
pub use runner::{Job, State, Step};
pub use table::{Location, Table, Task};
pub use windows::{Cycle, Verdict};
