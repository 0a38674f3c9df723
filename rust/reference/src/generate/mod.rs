//! Seeded generators of calls and jobs for differential tests.

mod calls;
mod damage;
mod every_letter;
mod jobs;
mod measurements;
mod readings;
mod rng;
mod values;

pub use calls::CallSource;
pub use every_letter::every_letter;
pub use jobs::{job, small_job};
pub use rng::Rng;
