//! The package against the reference, call by call and job by job.
//!
//! Random lists of calls run on both sides. After each call everything that a
//! caller can see is compared: refusal, branch, verdict, status, every number
//! of the lent array, every byte of the lent buffer, all records.

mod difference;
pub mod layout;
mod lengths;
mod lent;
mod list;
mod odd;
mod pair;
mod run;
mod shrink;
pub mod subject;
mod tally;

pub use difference::Difference;
pub use list::{List, Stop};
pub use pair::Pair;
pub use run::{Found, Plan, LIST_CALLS, LIST_JOBS};
pub use tally::Tally;
