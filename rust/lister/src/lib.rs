//! A second, independent reading of docs/RULES.md by the plainest means: guards by trying every value,
//! bounds by listing every run. It shares nothing with the proved library that it is compared with.

pub mod bounds;
pub mod demand;
pub mod judge;
pub mod listing;
pub mod record;
pub mod refusal;
pub mod runner;
pub mod runs;
pub mod table;

pub use bounds::{cycle, fill, least, most};
pub use demand::{Verdict, demand, verdict, wait};
pub use judge::judge;
pub use listing::listing;
pub use record::{field, read, write};
pub use refusal::Refusal;
pub use runner::{Job, State, Step};
pub use table::{Location, Table, Task};
